"""Whether the jobs of a region are, together, the region: where a rule asks, no boxes of two jobs may touch."""
from collections import Counter, defaultdict
from itertools import accumulate
from math import gcd
from typing import Any, Dict, Iterator, List, Sequence, Tuple

from .apart import Sets, around, touching_alike
from .call import Refused

Box = Tuple[int, ...]
Place = Tuple[int, int]  # a lot: its job, and its place there


def sums(told: Sequence[Any]) -> Tuple[Dict[str, int], Dict[str, List[int]]]:
    """The counts of the town and its bill, from those of its jobs."""
    counts, bill = Counter(), defaultdict(lambda: [0, 0, 0, 0])
    for job in told:
        counts.update(job.counts)
        for symbol, numbers in job.bill.items():
            bill[symbol] = [one + other for one, other in zip(bill[symbol], numbers)]
    return counts, bill


def bill_text(bill: Dict[str, List[int]]) -> str:
    lines = [f"# bill {len(bill)}\n"]
    for symbol, (number, front, volume, unmeasured) in sorted(bill.items()):
        lines.append(f"# bill {symbol} {number} {millionths(front)} {millionths(volume)} {unmeasured}\n")
    return "".join(lines)


def millionths(number: int) -> str:
    return f"{number // 10 ** 6}.{number % 10 ** 6:06}"


def over_all(told: Sequence[Any]) -> Iterator[List[Box]]:
    """The boxes of each job over one denominator."""
    one = 1
    for job in told:
        one = one * job.one // gcd(one, job.one)
    for job in told:
        by = one // job.one
        yield job.boxes if by == 1 else [tuple(number * by for number in box) for box in job.boxes]


def within(boxes: Sequence[Box], area: Box) -> List[int]:
    """The places of the boxes that touch an area."""
    x, x_end, z, z_end, y, y_end = area
    return [
        at
        for at, (a, b, c, d, e, f) in enumerate(boxes)
        if a <= x_end and x <= b and c <= z_end and z <= d and e <= y_end and y <= f
    ]


def across_jobs(jobs: Sequence[List[Box]], angles: Sequence[float]) -> Iterator[Tuple[Place, Place]]:
    """The pairs of lots of two jobs of one angle whose boxes touch; a lot is its job and its place there. Only lots are
    compared that reach another job's box."""
    wholes, near = list(map(around, jobs)), defaultdict(set)
    for one, other in touching_alike(wholes, angles):
        near[one].update(within(jobs[one], wholes[other]))
        near[other].update(within(jobs[other], wholes[one]))
    lots = [(job, at) for job, places in sorted(near.items()) for at in sorted(places)]
    for one, other in touching_alike([jobs[job][at] for job, at in lots], [angles[job] for job, _ in lots]):
        if lots[one][0] != lots[other][0]:
            yield lots[one], lots[other]


class Names:
    """The own lots of jobs, by the number of their job and their places there."""

    def __init__(self, plan: Any, jobs: Sequence[Any]) -> None:
        self.plan, self.jobs = plan, jobs
        self.before = [0, *accumulate(job.own for job in jobs)]
        self.known: Dict[int, List[str]] = {}

    def number(self, place: Place) -> int:
        return self.before[place[0]] + place[1]

    def of(self, place: Place) -> str:
        job, at = place
        if job not in self.known:
            self.known[job] = self.plan.own(self.jobs[job])
        return self.known[job][at]


def touching_districts(plan: Any, jobs: Sequence[Any], told: Sequence[Any]) -> List[Tuple[str, str]]:
    """Pairs of lots of two jobs that are to stand in one, as few as join all that touch."""
    if any(len(job.boxes) == 0 for job in told):
        raise Refused(
            f"rule {', '.join(plan.asks())} asks by Scope.occ, and the program of the jobs tells no boxes: cut the script again "
            "with the program cga_hulls"
        )
    sets, names = Sets(sum(job.own for job in jobs)), Names(plan, jobs)
    found = sorted(across_jobs(list(over_all(told)), [job.angle for job in jobs]))
    return [
        (names.of(one), names.of(other)) for one, other in found if sets.join(names.number(one), names.number(other))
    ]
