"""The sources at a script's end and the steps of its derivation, as the program tells them by `dump` and `trace`."""
import re
from typing import Dict, List, NamedTuple, Optional, Tuple

from definition.check import group
from definition.rule import Attribute
from definition.sources import Lot, Sources
from definition.told import city_of

from ..call import Refused
from ..program import run
from ..replies import is_refused, replies, without_changes
from ..script import commands, is_open, is_version, text_of, without
from ..standing import standing

Path = Tuple[int, ...]
Key = Tuple[str, Path]
ASKED = re.compile(r"# step (\S+) (\S+) (\S+) (\S+) (\S+) (\S+)")


class Step(NamedTuple):
    """The number of a step in the order of the derivation, and the answers that its shape got."""

    number: int
    answers: Dict[str, Optional[str]]
    outcome: str


class Town:
    """The town of a script."""

    def __init__(self, program: str, lines: List[str]) -> None:
        answers, printed, steps = asked(program, lines)
        self.refused = sum(is_refused(reply) for _, reply in answers)
        self.sources: Sources = city_of(printed[2:-1])
        self.attributes = {one.name: one.value for one in self.sources.grammar.attributes if isinstance(one, Attribute)}
        self.lots = {lot.name: lot for lot in self.sources.lots}
        self.rules = rule_texts(printed)
        self.places = {number: at for number, (_, at) in standing(lines, answers).rules.items()}
        self.steps: Dict[Key, Step] = dict(map(step_of, enumerate(steps)))
        self.groups: Dict[str, object] = {}

    def group(self, symbol: str):
        """The rules of a symbol, as they are tried."""
        if symbol not in self.groups:
            self.groups[symbol] = group(self.sources.grammar, symbol)
        return self.groups[symbol]

    def lot(self, name: str) -> Lot:
        if name not in self.lots:
            many = len(self.lots)
            some = ", ".join(list(self.lots)[:6]) + (f" and {many - 6} more" if many > 6 else "")
            raise Refused(f"no lot has the name {name}; " + (f"there are {some}" if many else "there is none"))
        return self.lots[name]

    def line_of(self, number: int) -> str:
        """Where a rule stands in the script."""
        return f"line {self.places[number] + 1}" if number in self.places else "no line of the script"


def asked(program: str, lines: List[str]) -> tuple:
    """The commands with their replies, the printed sources, and the lines of the trace."""
    told = without(lines, "quiet", "print", "model", "dump", "trace")
    found = commands(told)
    if any(is_open(command, told) for command in found):
        raise Refused("no line `end` ends the last block of the script: tools/lint says which")
    head = [] if found and is_version(found[0].words) else ["version 2"]
    status, out = run(program, text_of([*head, *told, "dump", "trace"]))
    got = list(replies(without_changes(out)))
    if status or len(got) != len(found) + len(head) + 2:
        raise Refused(f"no answer: the program ended with status {status}")
    printed, trace = got[-2:]
    if is_refused(printed):
        raise Refused(f"the sources can't be printed: {printed[0][2:]}")
    return list(zip(found, got[len(head) :])), printed[1:], trace[1:]


def rule_texts(printed: List[str]) -> Dict[int, str]:
    """The text of each rule, by its number."""
    found = (re.match(r"(\d+): (.*)", line) for line in printed)
    return {int(rule[1]): rule[2] for rule in found if rule}


def path_of(text: str) -> Path:
    return tuple(int(part) for part in text.split("/") if part)


def step_of(numbered: Tuple[int, str]) -> Tuple[Key, Step]:
    number, line = numbered
    lot, path, _, noparent, active, outcome = ASKED.fullmatch(line).groups()
    answers = {"noparent": None if noparent == "-" else noparent, "active": None if active == "-" else active}
    return (lot, path_of(path)), Step(number, answers, outcome)
