"""The lots of a cut behind some changes of its script: those that went are taken from their jobs, and those that came are in no job
yet. The lines of a job's own lots are read from its script, as they are asked for."""
import re
from array import array
from typing import Any, Dict, Iterable, List, NamedTuple, Sequence, Set, Tuple

from .deal import Bounds, ends
from .lot_lines import angle, plain
from .region import grounds_of
from .script_changes import OtherLines, Splice

NEW = -1  # in place of the number of a job
LINE = re.compile(rb"^lot .*$", re.MULTILINE)


class Lot(NamedTuple):
    """A lot's line and its angle."""

    line: str
    angle: float

    def name(self) -> str:
        return self.line.split(" ", 2)[1]


class SomeLots:
    """Some lots, by their places in a list, as the deal knows those of a region."""

    def __init__(self, lots: Sequence[Lot]) -> None:
        self.lots, self.angles = [lot.line for lot in lots], [lot.angle for lot in lots]
        columns = [list(column) for column in zip(*(line.split(" ")[3:7] for line in self.lots))]
        self.columns = columns or [[], [], [], []]
        self.known: Dict[str, Tuple[int, List[Bounds]]] = {}

    def grounds(self, reach: str = "0") -> Tuple[int, List[Bounds]]:
        if reach not in self.known:
            self.known[reach] = grounds_of("the script", self.columns, reach)  # type: ignore[assignment]
        return self.known[reach]


def bounds_of(lot: Lot, reach: str) -> Bounds:
    """Whole numbers between which a lot stands, with the reach on each side."""
    one, boxes = SomeLots([lot]).grounds(reach)
    return ends(one, boxes)[1]


class Places(Dict[int, List[int]]):
    """The places at which a number stands in a list, found as they are asked for."""

    def __init__(self, numbers: Any) -> None:
        super().__init__()
        self.data = numbers.tobytes()

    def __missing__(self, number: int) -> List[int]:
        found, wanted = [], array("i", [number]).tobytes()
        at = self.data.find(wanted)
        while at >= 0:
            if at % 4 == 0:
                found.append(at // 4)
            at = self.data.find(wanted, at + 1)
        self[number] = found
        return found


class ChangedLots:
    """`plan` is the former one. Jobs go by their numbers there; `places` has of each the places of its lots that stay, in the new
    order, and of the new lots theirs."""

    def __init__(self, plan: Any, changes: Sequence[Splice]) -> None:
        self.plan, self.jobs = plan, plan.drawn()
        self.gone: Dict[int, Dict[str, Lot]] = {}
        self.come = [Lot(plain(lot), angle(lot)) for splice in changes for lot in splice.come]
        self.deal = self.spliced(changes)
        self.places = Places(self.deal)
        self.known: Dict[int, List[Lot]] = {NEW: self.come}

    def spliced(self, changes: Sequence[Splice]) -> Any:
        former = self.plan.deal
        for place, gone, _ in changes:
            for at, lot in enumerate(gone, place):
                found = Lot(plain(lot), angle(lot))
                self.gone.setdefault(former[at], {})[found.name()] = found
        deal = array("i", former.tobytes())
        for place, gone, come in reversed(changes):
            deal[place : place + len(gone)] = array("i", [NEW] * len(come))
        return deal

    def former(self, number: int) -> List[Lot]:
        """The own lots that a job had."""
        job = self.jobs[number]
        lines = LINE.findall(self.plan.script(job))[: job.own]
        return [Lot(line.decode(), job.angle) for line in lines]

    def own(self, number: int) -> List[Lot]:
        """The lots of a job that stay, in the order of their places."""
        if number not in self.known:
            gone = self.gone.get(number, {})
            self.known[number] = [lot for lot in self.former(number) if lot.name() not in gone]
            if len(self.known[number]) != len(self.places[number]):
                raise OtherLines
        return self.known[number]

    def at(self, places: Sequence[int]) -> List[Lot]:
        """The lots at some places."""
        wanted = {self.deal[at] for at in places}
        found = {at: lot for number in wanted for at, lot in zip(self.places[number], self.own(number))}
        return [found[at] for at in places]

    def some(self, numbers: Iterable[int]) -> Tuple[List[int], List[Lot]]:
        """The places of the lots of some jobs, in the script's order, and the lots."""
        found = sorted((at, lot) for number in numbers for at, lot in zip(self.places[number], self.own(number)))
        return [at for at, _ in found], [lot for _, lot in found]

    def near(self, lot: Lot, reach: str) -> Set[int]:
        """The jobs at a lot's angle whose lots may touch it, where each ground is grown by the reach."""
        return self.within(bounds_of(lot, reach), lot.angle, reach)

    def near_job(self, number: int, reach: str) -> Set[int]:
        """The same of all lots of a job."""
        return self.within(self.jobs[number].bounds, self.jobs[number].angle, reach, 2)

    def within(self, bounds: Sequence[int], angle: float, reach: str, times: int = 1) -> Set[int]:
        """The jobs at an angle whose lots may stand in an area, if that is grown by some times the reach."""
        x, x_end, z, z_end = bounds
        more = times * bounds_of(Lot("lot a 1 0 0 0 0 a", 0), reach)[1]
        return {
            number
            for number, job in enumerate(self.jobs)
            if job.angle == angle
            and job.bounds[0] - more <= x_end
            and x <= job.bounds[1] + more
            and job.bounds[2] - more <= z_end
            and z <= job.bounds[3] + more
        }
