"""The neighbours of lots behind some changes of a script: lots whose grounds touch. Jobs are read as far as their lots are asked for."""
from typing import Dict, List, Sequence, Set

from .changed_lots import NEW, ChangedLots, Lot
from .deal import ring_of
from .grid import ONE, Box, Grid, number

Near = Dict[int, Set[int]]


class NearLots(Near):
    """Of each lot those whose grounds touch its own, by places; found as it is asked for."""

    def __init__(self, lots: ChangedLots, reach: str) -> None:
        super().__init__()
        self.lots, self.reach, self.more = lots, reach, number(reach)
        self.grids: Dict[float, Grid] = {}
        self.home: Dict[int, int] = {}  # of each lot that was read the number of its job
        self.angles: Dict[int, float] = {}
        self.read: Set[int] = set()
        self.whole: Set[int] = set()  # the jobs all around which is read
        self.load({NEW})

    def ring(self, own: Sequence[int], rings: int) -> List[int]:
        """The lots that are at most so many steps from these, which have to be of jobs that are there or new."""
        self.load({int(self.lots.deal[at]) for at in own})
        return ring_of(own, self, rings, {})

    def load(self, numbers: Set[int]) -> None:
        for job in numbers - self.read:
            self.read.add(job)
            for at, lot in zip(self.lots.places[job], self.lots.own(job)):
                self.home[at], self.angles[at] = job, lot.angle
                self.grid(lot).put(at, self.box(lot))  # type: ignore[arg-type]

    def grid(self, lot: Lot) -> Grid:
        if lot.angle not in self.grids:
            x, x_end, z, z_end = self.box(lot)
            self.grids[lot.angle] = Grid(int(max(2 * (x_end - x), 2 * (z_end - z), ONE)))
        return self.grids[lot.angle]

    def box(self, lot: Lot) -> Box:
        x, z, width, depth = map(number, lot.line.split(" ")[3:7])
        return x - self.more, x + width + self.more, z - self.more, z + depth + self.more

    def around(self, at: int) -> None:
        """Reads all jobs that may have a neighbour of a lot."""
        job = self.home[at]
        if job == NEW:
            lots = [lot for place, lot in zip(self.lots.places[NEW], self.lots.come) if place == at]
            self.load(self.lots.near(lots[0], self.reach))
        elif job not in self.whole:
            self.whole.add(job)
            self.load(self.lots.near_job(job, self.reach))

    def __missing__(self, at: int) -> Set[int]:
        self.around(at)
        grid = self.grids[self.angles[at]]
        found: Set[int] = set(grid.touching(grid.boxes[at]))  # type: ignore[arg-type,index]
        self[at] = found - {at}
        return self[at]
