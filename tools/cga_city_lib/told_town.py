"""A script's town at its end, as a program tells it: the lots in order, and a line for each instance, in the order of `print`
where that is wanted."""
from collections import Counter
from itertools import repeat
from typing import List, NamedTuple, Optional, Sequence

from .call import Refused
from .live import Live
from .pipe import Ended
from .replies import counts_of, is_refused
from .script import Command, commands, is_open, is_version, lines_of
from .session import OPEN
from .standing import Standing, standing
from .traced import Traced

PRINTING = (["quiet"], ["print"], ["model"])


class Script(NamedTuple):
    """The lines of a script that ask for no OBJ text, behind them those that set attributes, and the commands in them."""

    path: str
    lines: List[str]
    found: List[Command]
    settings: int
    is_left_open: bool

    def is_second(self) -> bool:
        return bool(self.found) and is_version(self.found[0].words)

    def is_dressed(self) -> bool:
        return any(command.words[:1] == ["dress"] for command in self.found)

    def standing(self, answers: Sequence[List[str]]) -> Standing:
        return standing(self.lines, zip(self.found, answers))


class Told(NamedTuple):
    """The names of the lots in order, a line for each instance, its id where that was asked for, the replies, and how many
    shapes came to nothing."""

    lots: List[str]
    drawn: List[str]
    ids: Optional[List[str]]
    answers: List[List[str]]
    faults: int


def script_of(path: str, data: bytes, settings: Sequence[str] = ()) -> Script:
    """The script with some settings, as `storey = 3`, behind its last line."""
    lines = lines_of(data)
    found = commands(lines)
    is_left_open = bool(found) and is_open(found[-1], lines)
    for command in found:
        if command.words[:1] in PRINTING:
            lines[command.first] = "stats"
    if is_left_open:
        lines = lines[: found[-1].first]
    lines = lines + [f"attr {setting}" for setting in settings]
    return Script(path, lines, commands(lines), len(settings), is_left_open)


class Teller:
    """A running program that tells changes. `drawn` has what it told in the order of the derivation, where it was one."""

    def __init__(self, program: str) -> None:
        self.first: Optional[List[bytes]] = None
        self.counts: Optional["Counter[bytes]"] = None
        self.faults = 0  # as they were told last
        self.live = Live(program, self.change)

    def change(self, gone: List[bytes], come: List[bytes]) -> None:
        if self.first is None and not gone:
            self.first = come
            return
        if self.counts is None:
            self.counts = Counter(self.first)
        self.counts.subtract(gone)
        self.counts.update(come)

    def is_one_derivation(self) -> bool:
        return self.counts is None

    def drawn(self) -> List[str]:
        lines = (self.first or ()) if self.counts is None else (+self.counts).elements()
        return [line.decode("latin-1") for line in lines]

    def ask(self, lines: Sequence[str], number: int) -> List[List[str]]:
        """The replies to lines that have so many."""
        try:
            *found, stats = self.live.ask([*lines, "stats"], number + 1)
        except Ended as fault:
            raise Refused(f"there is no answer: {fault}") from None
        self.faults = counts_of(stats).get("faults", 0)
        return found


def told_by(program: str, script: Script, is_ordered: bool = False) -> Told:
    """What a program that tells changes says of the script."""
    teller = Teller(program)
    try:
        answers = teller.ask(script.lines, len(script.found))
        lots = list(script.standing(answers).lots)
        if not is_ordered:
            return Told(lots, teller.drawn(), None, answers, teller.faults)
        if not (script.is_second() and teller.is_one_derivation()):
            teller = derived_at_once(program, script, answers, teller)
        return in_order(lots, teller, answers)
    finally:
        teller.live.close()


def derived_at_once(program: str, script: Script, answers: Sequence[List[str]], teller: Teller) -> Teller:
    """A program that has the same town from one block; the other one is ended. Sources too long for a dump stay as they are."""
    (sources,) = teller.ask(["dump" if script.is_second() else "grammar"], 1)
    if is_refused(sources):
        return teller
    teller.live.close()
    if not script.is_second():
        lots = [script.lines[at] for _, at in script.standing(answers).lots.values()]
        sources = ["version 2", "city", *sources[1:-1], *lots, "end"]
    other = Teller(program)
    other.ask(sources, len(commands(sources)))
    return other


def in_order(lots: List[str], teller: Teller, answers: List[List[str]]) -> Told:
    """The lines by the places of their lots and their paths. A derivation tells instances in the order of its steps."""
    (trace,) = teller.ask(["trace"], 1)
    traced, drawn = Traced(trace[1:]), teller.drawn()
    found = list(traced.in_order(lots))
    order = [at for _, numbers in found for at in numbers]
    if len(order) != len(drawn) or not all(are_of(lot, [drawn[at] for at in numbers]) for lot, numbers in found):
        return Told(lots, sorted(drawn), None, answers, teller.faults)
    return Told(lots, [drawn[at] for at in order], [traced.ids[at] for at in order], answers, teller.faults)


def are_of(lot: str, lines: Sequence[str]) -> bool:
    return all(map(str.startswith, lines, repeat(f"{lot} ")))


def check_settings(script: Script, answers: Sequence[List[str]]) -> None:
    """Refuses a setting that the program refused, and says which attributes there are."""
    behind = len(script.found) - script.settings
    for command, answer in zip(script.found[behind:], answers[behind:]):
        if is_refused(answer):
            names = list(script.standing(answers).attributes)
            known = f"the attributes are {', '.join(names)}" if names else "the script has no attribute"
            setting = "".join(command.words[1:])
            raise Refused(f"{script.path}: --set {setting} is refused ({answer[0][10:]}): {known}")


def refusals(script: Script, answers: Sequence[List[str]]) -> List[str]:
    """A line for each refused line that follows from no other."""
    told = [f"{script.path}: {OPEN[0][10:]}: no line `end` ends the last block"] * script.is_left_open
    if not any(map(is_refused, answers)):
        return told
    from .report import Report  # it takes long to load, and most scripts need none

    report = Report(script.path, script.lines, script.found, answers)
    return [line for line in report.refusals() if not line.startswith("    ")] + told
