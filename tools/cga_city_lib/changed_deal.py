"""How the lots of a cut are dealt behind some changes of its script. Squares that no change concerns keep their jobs, and the others
are dealt as all lots are in a cut from nothing."""
from typing import Any, Dict, Iterator, List, NamedTuple, Optional, Sequence, Set, Tuple

from .changed_lots import NEW, ChangedLots, SomeLots
from .deal import Share, Singly, by_angle, districts, ends, in_town, least
from .findings import key_of
from .near_lots import NearLots
from .program import MOST_LOTS
from .quadtree import Leaf, Quadtree
from .script_changes import OtherLines

Square = Tuple[int, ...]


class Made(NamedTuple):
    """A job of the new plan: the number that it had in the former one, unless it is new; and its lots, unless they are the same."""

    number: Optional[int]
    share: Optional[Share]


class ChangedDeal:
    """`findings` are those of checks, by which the former cut was made, too."""

    def __init__(self, lots: ChangedLots, options: Any, asks: bool, findings: Any) -> None:
        self.lots, self.options, self.findings = lots, options, findings
        self.asks, self.rings = asks, options.rings if asks else 0
        self.squares: Dict[Square, List[int]] = {}  # of each square that keeps its jobs their numbers
        for number, job in enumerate(lots.jobs):
            self.squares.setdefault(tuple(job.square), []).append(number)
        self.dealt: List[int] = [NEW]  # the jobs whose lots are dealt again
        self.districts = 0  # how many more there are than before
        self.check_findings()

    def check_findings(self) -> None:
        """A lot that stands where a check has found something may be put together with another one of any job; and rings that
        grew aren't known here."""
        if self.rings and (self.findings.seen or self.findings.rings):
            raise OtherLines
        went = {key_of(*lot) for gone in self.lots.gone.values() for lot in gone.values()}
        came = {key_of(*lot) for lot in self.lots.come}
        if (came - went) & {key for pair in self.findings.together for key in pair}:
            raise OtherLines

    # ---- squares

    def expand(self, numbers: Set[int]) -> None:
        """Squares of some jobs are dealt again."""
        for square in {tuple(self.lots.jobs[number].square) for number in numbers}:
            self.dealt += self.squares.pop(square, [])

    def made(self) -> List[Made]:
        """All jobs, in the order of a cut from nothing."""
        self.expand(set(self.lots.gone))
        if self.asks and not self.rings:
            self.expand(set().union(*(self.lots.near(lot, self.options.reach) for lot in self.lots.come)))
        while True:
            places, some = self.lots.some(self.dealt)
            region = SomeLots(some)
            groups = self.groups(region)
            found = self.leaves(region, groups)
            if found is not None:
                break
        kept, leaves = found
        made: List[Made] = []
        for leaf in leaves:
            if leaf.items[0] < len(kept):
                made += [Made(number, None) for number in self.squares[kept[leaf.items[0]]]]
            else:
                items = [item - len(kept) for item in leaf.items]
                made += [Made(None, share) for share in self.shares(region, groups, leaf.square, items, places)]
        if self.asks and not self.rings:
            self.districts = len(groups) - self.former_districts()
        return self.ringed(made) if self.rings else made

    def leaves(self, region: SomeLots, groups: Sequence[Sequence[int]]) -> Optional[Tuple[List[Square], List[Leaf]]]:
        """The squares that keep their jobs, and all squares by these and by groups of lots; None where more is to be dealt again."""
        one, boxes = region.grounds()
        points = [in_town(least(one, [boxes[at] for at in group]), region.angles[group[0]]) for group in groups]
        held = self.holding(points)
        if held:
            self.expand(held)
            return None
        kept = list(self.squares)
        sizes = [sum(self.lots.jobs[number].own for number in self.squares[square]) for square in kept]
        corners = [(square[0], square[1]) for square in kept]
        tree = Quadtree([*corners, *points], [*sizes, *map(len, groups)], self.options.most)
        leaves = [Leaf(leaf.square, sorted(leaf.items)) for leaf in tree.leaves()]
        mixed = {item for leaf in leaves if len(leaf.items) > 1 for item in leaf.items if item < len(kept)}
        if mixed:
            self.expand({number for item in mixed for number in self.squares[kept[item]]})
            return None
        return kept, leaves

    def holding(self, points: Sequence[Tuple[int, int]]) -> Set[int]:
        """The jobs of squares in which some points lie."""
        sides, found = {square[2] for square in self.squares}, set()
        for x, z in points:
            for side in sides:
                found.update(self.squares.get((x // side * side, z // side * side, side), ()))
        return found

    def groups(self, region: SomeLots) -> Sequence[Sequence[int]]:
        """Lots that stay together: districts where a rule asks, or what checks put together."""
        if not self.asks:
            return Singly(len(region.lots))
        pairs = list(self.together(region))
        if self.rings:
            return districts(region, self.options, pairs, are_near=False)
        groups = districts(region, self.options, pairs)
        if max(map(len, groups), default=0) > MOST_LOTS:
            raise OtherLines  # which is refused, with a sentence
        return groups

    def together(self, region: SomeLots) -> Iterator[Tuple[int, int]]:
        if self.findings.together:
            keys = {key_of(*lot): at for at, lot in enumerate(zip(region.lots, region.angles))}
            yield from (
                (keys[one], keys[other]) for one, other in self.findings.together if one in keys and other in keys
            )

    def shares(
        self, region: SomeLots, groups: Sequence[Sequence[int]], square: Square, items: List[int], places: List[int]
    ) -> Iterator[Share]:
        one, boxes = region.grounds()
        for angle, some in by_angle(items, [region.angles[groups[item][0]] for item in items]):
            own = sorted(at for item in some for at in groups[item])
            yield Share([places[at] for at in own], [], square, angle, *ends(one, [boxes[at] for at in own]))

    def former_districts(self) -> int:
        """How many districts the lots were that are dealt again."""
        lots = [lot for number in self.dealt if number != NEW for lot in self.lots.former(number)]
        region = SomeLots(lots)
        return len(districts(region, self.options, list(self.together(region))))

    # ---- rings

    def ringed(self, made: List[Made]) -> List[Made]:
        """Gives new jobs their neighbours, and those that stay and are near a change."""
        changed = [*self.lots.come, *(lot for gone in self.lots.gone.values() for lot in gone.values())]
        concerned = set().union(*(self.lots.near(lot, self.options.reach) for lot in changed))
        near = NearLots(self.lots, self.options.reach)
        return [self.with_ring(job, near) if job.share or job.number in concerned else job for job in made]

    def with_ring(self, made: Made, near: NearLots) -> Made:
        share = made.share or self.share_of(made.number)
        ring = near.ring(share.own, self.rings)
        if len(share.own) + len(ring) > MOST_LOTS:
            raise OtherLines  # which is refused, with a sentence
        return Made(None, share._replace(ring=ring))

    def share_of(self, number: Optional[int]) -> Share:
        """The lots of a job that stays."""
        assert number is not None
        job, own = self.lots.jobs[number], list(self.lots.places[number])
        one, boxes = SomeLots(self.lots.own(number)).grounds()
        return Share(own, [], tuple(job.square), job.angle, *ends(one, boxes))
