"""Every refused line of a script's blocks. The program tells the first one of a block. Here that line is mended or taken out, and
the rest is asked again, until the block is accepted: so each refusal is what the program says."""
import re
import time
from collections import Counter
from typing import Callable, Dict, List, NamedTuple, Tuple

from .replies import is_refused
from .script import COMMANDS, COMMANDS_2, RESERVED, Command, is_open, tokens

Ask = Callable[[List[str]], List[List[str]]]
Place = Callable[[List[str], Command, List[str]], Tuple[int, int, str, List[str]]]
UNKNOWN = {"UnknownSymbol": 'I("quad")', "UnknownName": "1"}  # what may stand for such a name
SECONDS = 30
FRESH = 10**9  # the number of a rule that had none
HEAD = re.compile(
    r"\s*(?:(\d{1,9})(?:\.0+)?\s*:)?\s*([A-Za-z_]\w{0,31})\s*(?:\(([^()]*)\))?\s*(?::|-+>|\d+%)", re.ASCII
)
VALUE = re.compile(r"\s*(?:[A-Za-z_]\w*\s+)?([A-Za-z_]\w{0,31})\s*=(?!=)", re.ASCII)


class Refusal(NamedTuple):
    line: int
    column: int
    cause: str
    words: List[str]


def declared(line: str) -> str:
    """The symbol, attribute or lot that a line would have declared, as far as it can be read."""
    words = line.split()
    head, value = HEAD.match(line), VALUE.match(line)
    if words[:1] == ["lot"]:
        return words[1] if words[1:] else ""
    found = head[2] if head else value[1] if value else ""
    return "" if found in RESERVED else found


def stub(line: str, cause: str, at: int) -> str:
    """A line that declares what the line would have, so that little follows from it; a comment where that can't be read."""
    head, value = HEAD.match(line), VALUE.match(line)
    if line.split()[:1] == ["lot"]:
        return "#"
    if head:
        number = FRESH + at if cause == "DoubleId" or not head[1] else head[1]
        many = len(head[3].split(",")) if head[3] and head[3].strip() else 0
        parameters = ", ".join(f"stub{place}" for place in range(many))
        return f"{number}: {head[2]}{parameters and f'({parameters})'} -> NIL"
    return f"attr {value[1]} = 1" if value else "#"


def replaced(line: str, name: str, other: str) -> str:
    """The line with other text in the place of a name behind the rule's head, and of the arguments behind it."""
    found = tokens(line)
    for at in range(len(found) - 1, 2, -1):
        column, word = found[at]
        if word == name and found[at - 1][1] != ".":
            line = line[: column - 1] + other + line[end_of(line, found, at, name) :]
    return line


def end_of(line: str, found: List[Tuple[int, str]], at: int, name: str) -> int:
    """Where a call ends whose name is the token at this place."""
    depth = 0
    if found[at + 1 : at + 2] and found[at + 1][1] == "(":
        for column, word in found[at + 1 :]:
            depth += (word == "(") - (word == ")")
            if depth == 0:
                return column
    return found[at][0] - 1 + len(name)


def closed(command: Command, lines: List[str]) -> List[str]:
    """The lines up to the end of a block; one that is left open ends before the first line that stands in no block."""
    if not is_open(command, lines):
        return lines[: command.last + 1]
    inside = ["attr", "PRIORITY"] + ["lot"] * (command.words == ["city"])
    for at in range(command.first + 1, len(lines)):
        word = lines[at].split()[:1]
        if word and word[0] in COMMANDS + COMMANDS_2 and word[0] not in inside:
            return lines[:at] + ["end"]
    return lines + ["end"]


class Retried:
    """`told` has the refusals of a block by its first line, `follow` how many more follow from a line, and `final` the replies of
    a run in which all that was refused is mended, where each block could be; `is_late` says that time was over before.
    """

    def __init__(self, ask: Ask, place: Place, lines: List[str], answers: List[Tuple[Command, List[str]]]) -> None:
        self.ask, self.place, self.lines, self.working = ask, place, lines, list(lines)
        self.told: Dict[int, List[Refusal]] = {}
        self.follow: Dict[int, int] = Counter()
        self.touched: Dict[int, int] = Counter()
        self.lost: Dict[str, int] = {}
        self.is_all, self.is_late, self.end, self.final = True, False, time.monotonic() + SECONDS, []
        for number, (command, reply) in enumerate(answers):
            if command.is_block and command.words in (["rules"], ["city"]) and is_refused(reply):
                self.block(number, command, reply)
        if self.told and self.is_all:
            self.final = self.ask(self.working)

    def block(self, number: int, command: Command, reply: List[str]) -> None:
        self.told[command.first], self.lost = [], {}
        told = self.told[command.first]
        while is_refused(reply):
            refusal = self.as_written(Refusal(*self.place(self.working, command, reply)))
            if self.is_stuck(refusal, told):
                break
            if refusal.line == command.first and refusal.cause != "OpenBlock":
                told += [refusal] * (not told)  # else what was mended may be its cause
                self.is_all = False
                break
            if time.monotonic() > self.end:
                self.is_all, self.is_late = False, True
                break
            if refusal.cause == "OpenBlock":
                told.append(refusal)
            else:
                self.take(told, refusal)
            replies = self.ask(closed(command, self.working))
            if len(replies) <= number or replies[number] == ["# refused OpenBlock"]:
                self.is_all = False
                break
            reply = replies[number]
        told.sort()

    def as_written(self, refusal: Refusal) -> Refusal:
        """With the column of the script's own line, where that of a mended one was told."""
        if refusal.cause not in UNKNOWN:
            return refusal
        columns = [column for column, word in tokens(self.lines[refusal.line]) if word == refusal.words[-1]]
        return refusal._replace(column=columns[-(refusal.cause == "UnknownSymbol")] if columns else refusal.column)

    def is_stuck(self, refusal: Refusal, told: List[Refusal]) -> bool:
        """Whether a line is refused that isn't there any more: no program that reads scripts says so."""
        return self.working[refusal.line] == "#" or refusal.cause in UNKNOWN and refusal in told

    def take(self, told: List[Refusal], refusal: Refusal) -> None:
        """Keeps a refusal, unless it follows from one that is kept, and mends its line."""
        at, cause, name = refusal.line, refusal.cause, refusal.words[-1] if refusal.words else ""
        is_name = cause in UNKNOWN
        if (is_name or cause == "NoSymbol") and name in self.lost:
            self.follow[self.lost[name]] += 1
        elif is_name or not self.touched[at]:
            told.append(refusal)
        line = self.working[at]
        new = replaced(line, name, UNKNOWN[cause]) if is_name else "#" if self.touched[at] else stub(line, cause, at)
        self.working[at] = new if new != line else "#"
        self.touched[at] += not is_name
        self.lost.setdefault(name if is_name else declared(self.lines[at]), at)
