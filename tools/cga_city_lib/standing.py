"""What stands at a script's end, each with the place of its line: rules, attributes and lots."""
from collections import namedtuple
from typing import Any, Iterable, List, Tuple

from .script import EDITS, rule_in

# rules by id, attributes by name, lots by name; each with the place of its line, a lot with its symbol before that
Standing = namedtuple("Standing", "rules attributes lots")


def block(command: Any, lines: List[str]) -> range:
    """The places of the lines between a block's first and last one."""
    return range(command.first + 1, min(command.last, len(lines)))


def take_block(command: Any, lines: List[str], now: Standing) -> None:
    """Puts what the lines of a block say in the place of what such a block says."""
    for table in now if command.words[0] == "city" else now[:2]:
        table.clear()
    for at in block(command, lines):
        words, rule = lines[at].split("#")[0].split(), rule_in(lines[at])
        if rule:
            now.rules[rule.number] = rule, at
        elif words[:1] == ["attr"] and words[1:]:
            now.attributes[words[1].partition("=")[0]] = at
        elif words[:1] == ["lot"] and words[1:]:
            now.lots[words[1]] = words[-1], at


def take(command: Any, lines: List[str], now: Standing) -> None:
    """Puts what an accepted edit says into the tables."""
    head, name = command.words[0], command.words[1] if command.words[1:] else ""
    if head in ("rules", "city"):
        take_block(command, lines, now)
    elif head == "put":
        rule = rule_in(lines[command.first])
        now.rules.update({rule.number: (rule, command.first)} if rule else {})
    elif head == "drop":
        now.rules.pop(int(float(name)), None)
    elif head == "lot":
        now.lots[name] = command.words[-1], command.first
    elif head == "unlot":
        now.lots.pop(name, None)


def standing(lines: List[str], answers: Iterable[Tuple[Any, List[str]]]) -> Standing:
    """What stands behind the last of the commands, each with its reply."""
    done: List[Any] = []
    undone: List[Any] = []
    for command, reply in answers:
        head = command.words[0] if command.words and reply[0] == "# ok" else ""
        if head == "undo" and done:
            undone.append(done.pop())
        elif head == "redo" and undone:
            done.append(undone.pop())
        elif head in EDITS:
            done.append(command)
            undone.clear()
    now = Standing({}, {}, {})
    for command in done:
        take(command, lines, now)
    return now
