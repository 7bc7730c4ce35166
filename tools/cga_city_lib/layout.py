"""How a script is laid out: the spaces between tokens, comments, blank lines, and the numbers of rules."""
import re
from typing import Dict, Iterator, List, Tuple

from .script import LONGEST, RESERVED, Command, commands, rule_of, tokens
from .standing import block

STEP = 10
GREATEST = 999999
TOKEN = re.compile(r'\d+(\.\d+)?r?|[A-Za-z_]\w*|"\w*"|->|[=!<>]=|[()\[\]{},:|+\-*/.=<>]', re.ASCII)
BODIES = ("rules", "city")
ID = re.compile(r"(\s*(?:put\s+\S+\s+|drop\s+)?)(\d+)(?:\.0+)?(?=\s*(?::|$|#))")


def is_value_end(word: str) -> bool:
    """Whether a `-` behind this token takes away, and doesn't begin a factor."""
    return bool(re.match(r'[\w)"]', word[-1:], re.ASCII)) and word not in RESERVED


def spaced(words: List[str]) -> str:
    """The tokens of a line with the spaces between them, as rules are printed."""
    text, before, is_factor = "", "", False
    is_plain = words[:1] in (["lot"], ["attr"])
    for at, word in enumerate(words):
        is_tight = (
            not text
            or before in ("(", ".")
            or word in (")", ",", ".")
            or word == "("
            and re.fullmatch(r"[A-Za-z_]\w*", before, re.ASCII)
            or is_factor
            or word == ":"
            and is_behind_number(words, at)
            or is_plain
            and "/" in (word, before)
        )
        is_factor = word == "-" and (words[0] == "lot" or not is_value_end(before))
        text, before = text + ("" if is_tight else " ") + word, word
    return text


def is_behind_number(words: List[str], at: int) -> bool:
    """Whether the colon at this place stands behind the number of a rule or of a priority."""
    return at == 1 or words[0] == "put" and at == 3 or words[0] == "PRIORITY" and at == 2


def laid_out(line: str) -> str:
    """The line with one space between two tokens or none; as it is where a token isn't one of the language."""
    found = tokens(line)
    words = [word for _, word in found]
    comment = line.find("#")
    if not all(TOKEN.fullmatch(word) for word in words) or len(line) > LONGEST:
        return line.rstrip(" \t\r")
    text = spaced(words)
    note = "" if comment < 0 else line[comment:].rstrip(" \t\r")
    return text + ("  " * bool(text and note)) + note


def kept_lines(lines: List[str]) -> Iterator[int]:
    """The places of lines that are no rules, attributes or commands: those of assets and of traces."""
    for command in commands(lines):
        if command.is_block and command.words[0] not in BODIES:
            yield from block(command, lines)


def layout(lines: List[str]) -> List[str]:
    """The lines of a script, laid out: no more than one blank line at a time, and none at the ends."""
    kept, found = set(kept_lines(lines)), []
    for at, line in enumerate(lines):
        text = line.rstrip(" \t\r") if at in kept else laid_out(line)
        if text or at in kept or found and found[-1]:
            found.append(text)
    while found and not found[-1]:
        found.pop()
    return found


# ---- numbers of rules


def places(lines: List[str]) -> Iterator[Tuple[Command, List[int]]]:
    """Each command that says numbers of rules, with the places of their lines."""
    for command in commands(lines):
        head = command.words[:1]
        if command.is_block and command.words[0] in BODIES:
            yield command, [at for at in block(command, lines) if rule_of(lines[at])]
        elif head in (["put"], ["drop"]) and ID.match(lines[command.first]):
            yield command, [command.first]


def number_in(line: str) -> int:
    return int(ID.match(line).group(2))


def numbers(lines: List[str], step: int) -> Dict[int, int]:
    """By the place of a line the new number of its rule. The order of a symbol's rules stays.

    Where one block says all rules, numbers rise by the lines. Else all numbers of the script keep their order, so that
    `put` and `drop` mean the rules that they meant.
    """
    said = list(places(lines))
    all_places = [at for _, own in said for at in own]
    if len(said) == 1 and is_told_once(lines, all_places):
        return by_lines(lines, all_places, step)
    order = sorted({number_in(lines[at]) for at in all_places})
    new = {number: (rank + 1) * step for rank, number in enumerate(order)}
    return {at: new[number_in(lines[at])] for at in all_places}


def is_told_once(lines: List[str], where: List[int]) -> bool:
    return len({number_in(lines[at]) for at in where}) == len(where)


def by_lines(lines: List[str], where: List[int], step: int) -> Dict[int, int]:
    """Numbers that rise by the lines, but where the rules of one symbol stand in another order than they are tried."""
    new = {at: (rank + 1) * step for rank, at in enumerate(where)}
    symbols = {rule_of(lines[at])[1] for at in where}
    for symbol in symbols:
        own = [at for at in where if rule_of(lines[at])[1] == symbol]
        ranked = sorted(own, key=lambda at: number_in(lines[at]))
        new.update(zip(ranked, [new[at] for at in own]))
    return new


def numbered(lines: List[str], step: int = STEP) -> List[str]:
    """The lines with new numbers of rules, in steps; with smaller steps where there is no room."""
    found = list(lines)
    told = numbers(lines, step)
    if told and max(told.values()) > GREATEST:
        told = numbers(lines, 1)
    for at, number in told.items():
        found[at] = ID.sub(lambda match: f"{match.group(1)}{number}", lines[at], count=1)
    return found
