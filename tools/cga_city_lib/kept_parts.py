"""The parts of a region that is kept. A part is some lots, and perhaps their neighbours, of which one run tells boxes and steps;
a job has one part or several. Where no rule asks, a job is one part, and nothing is told."""
from collections import defaultdict
from typing import Dict, Iterable, List, NamedTuple, Optional, Set, Tuple

from .deal import ring_of
from .grid import ONE, Box, Grid, Number
from .kept_sources import Lot
from .live_job import LiveJob
from .program import MOST_LOTS
from .told_boxes import Told

Square = Tuple[int, ...]


def side_of(lots: Iterable[Lot]) -> int:
    """The side of squares that have a few lots each."""
    widths = sorted(lot.ground[1] - lot.ground[0] for lot in lots)
    return 1 + int(2 * widths[len(widths) // 2]) if widths else 16 * ONE


class TooManyLots(Exception):
    """A job would have more lots than a run takes."""


class Job:
    """A process with its parts; it is begun once it has lots."""

    def __init__(self, square: Square) -> None:
        self.square, self.parts = square, set()  # type: Square, Set[Part]
        self.live: Optional[LiveJob] = None
        self.unsure: Set[str] = set()  # lots of which the process may know something else than its parts

    def own(self) -> Set[str]:
        return set().union(*(part.own for part in self.parts))

    def has(self) -> Set[str]:
        return set().union(*(part.own | part.ring for part in self.parts))

    def away(self, ground: Box) -> Number:
        """How far a corner lies from the square."""
        x, z, side = self.square
        corners = ((x * ONE, ground[0]), (z * ONE, ground[2]))
        return sum(max(low - at, 0, at - low - side * ONE) for low, at in corners)


class Part:
    """The names of own lots and of their neighbours, and what a run told of them."""

    def __init__(self, job: Job) -> None:
        self.job = job
        self.own: Set[str] = set()
        self.ring: Set[str] = set()
        self.told: Dict[str, Told] = {}

    def has_as(self, name: str, other: "Part") -> bool:
        """Whether this part has derived an own lot of another one, by the same steps."""
        return name in self.ring and self.told[name].digest == other.told[name].digest


class Was(NamedTuple):
    """What a part was before an edit."""

    job: Job
    own: Set[str]
    ring: Set[str]
    told: Dict[str, Told]


class Parts:
    """Of each lot the part that it is an own one of, and those that have it as a neighbour. `before` is the parts that changed
    since the edit began, so that it can be taken back."""

    def __init__(self, lots: Dict[str, Lot], rings: int, reach: Number) -> None:
        self.lots, self.rings, self.reach = lots, rings, reach
        self.jobs: List[Job] = []
        self.home: Dict[str, Part] = {}
        self.holders: Dict[str, Set[Part]] = defaultdict(set)
        self.grounds, self.boxes = (Grid(side_of(lots.values())) for _ in range(2))
        self.near: Dict[str, Set[str]] = defaultdict(set)  # lots whose grounds touch, or that see each other from afar
        self.more: Dict[str, int] = {}  # the rings of a lot, where these are more than of others
        self.before: Dict[Part, Was] = {}
        self.is_checked = False  # whether all parts agreed before the edit

    # ---- parts

    def add(self, job: Job, own: Iterable[str], ring: Iterable[str] = ()) -> Part:
        part = Part(job)
        self.set(part, job, set(own), set(ring))
        return part

    def set(self, part: Part, job: Job, own: Set[str], ring: Set[str]) -> None:
        """Gives a part other lots, or another job."""
        self.before.setdefault(part, Was(part.job, part.own, part.ring, part.told))
        ring = ring if own else set()
        is_same = part.job is job
        part.job.unsure |= (part.own ^ own) | (part.ring ^ ring) if is_same else part.own | part.ring
        job.unsure |= set() if is_same else own | ring
        for name in part.own - own:
            if self.home.get(name) is part:
                del self.home[name]
        self.home.update(dict.fromkeys(own - part.own, part))
        for name in part.ring - ring:
            self.holders[name].discard(part)
        for name in ring - part.ring:
            self.holders[name].add(part)
        part.job.parts.discard(part)
        part.job, part.own, part.ring = job, own, ring
        if own:
            job.parts.add(part)

    def tell(self, part: Part, told: Dict[str, Told]) -> None:
        """Takes what a run told of the part."""
        self.before.setdefault(part, Was(part.job, part.own, part.ring, part.told))
        part.told = told
        for name in part.own:
            self.boxes.put(name, told[name].box)

    def changed_jobs(self) -> Set[Job]:
        """The jobs whose lots may be others than before."""
        return {job for part, was in self.before.items() for job in (part.job, was.job)}

    def keep(self) -> None:
        """The edit is done."""
        self.sure(self.changed_jobs())
        self.before.clear()

    def sure(self, jobs: Iterable[Job]) -> None:
        """The processes of some jobs know what their parts are."""
        for job in jobs:
            job.unsure = set()

    def take_back(self) -> None:
        """All parts are what they were before the edit. The lots have to be those of before, too."""
        for part in [part for part in self.before if part.own]:
            self.set(part, part.job, set(), part.ring)
        for part, was in self.before.items():
            self.set(part, was.job, was.own, was.ring)
            part.told = was.told
            for name in was.own & was.told.keys():
                self.boxes.put(name, was.told[name].box)
        self.before.clear()

    # ---- lots

    def put(self, name: str, lot: Lot) -> None:
        """A lot stands there from now on."""
        ground = self.grown(lot)
        self.grounds.put(name, ground)
        if self.rings:
            self.leave(name)
            for other in self.grounds.touching(ground):
                self.see(name, other)

    def grown(self, lot: Lot) -> Box:
        """A lot's ground, with the reach on each side."""
        x, x_end, z, z_end = lot.ground
        return x - self.reach, x_end + self.reach, z - self.reach, z_end + self.reach

    def see(self, name: str, other: str) -> None:
        """Each of two lots is in the first ring around the other one."""
        if name != other:
            self.near[name].add(other)
            self.near[other].add(name)

    def drop(self, name: str) -> None:
        """A lot is gone."""
        self.grounds.drop(name)
        self.boxes.drop(name)
        self.leave(name)

    def leave(self, name: str) -> None:
        for other in self.near.pop(name, ()):
            self.near[other].discard(name)

    def around(self, names: Iterable[str]) -> Set[str]:
        """These lots, and all from which a ring may come to one of them."""
        found, edge = set(names), set(names)
        for _ in range(max([self.rings, *self.more.values()])):
            edge = {other for name in edge for other in self.near.get(name, ())} - found
            found |= edge
        return found

    def ring(self, own: Set[str]) -> Set[str]:
        return set(ring_of(own, self.near, self.rings, self.more)) if self.rings else set()

    def job_of(self, ground: Box) -> Optional[Job]:
        """The job of a place; None where no job has lots."""
        return min((job for job in self.jobs if job.parts), key=lambda job: job.away(ground), default=None)

    def check_sizes(self) -> None:
        if any(len(job.has()) > MOST_LOTS for job in self.changed_jobs()):
            raise TooManyLots
