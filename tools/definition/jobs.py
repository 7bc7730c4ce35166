"""Jobs of a town that derive lots round those that they answer for, and whether they are the town (cga_region)."""
from collections import defaultdict
from dataclasses import dataclass, replace
from functools import lru_cache
from typing import Dict, Tuple

from .asked import on_path
from .check import group, mentions_target
from .derivation import INSTANCE, derived
from .frame import Box, meets
from .run import step_text


@dataclass(frozen=True)
class Job:
    """Names of lots, and by these the members, each a shape with what it is, and the texts of the steps in their order."""

    own: Tuple
    ring: Tuple
    members: Dict
    steps: Dict


class Jobs:
    def __init__(self, sources, budget, shares):
        self.sources, self.budget = sources, budget
        groups = {entry.rule.symbol: group(sources.grammar, entry.rule.symbol) for entry in sources.grammar.rules}
        self.priorities = {symbol: rules.priority for symbol, rules in groups.items()}
        self.asking = {
            symbol
            for symbol, rules in groups.items()
            if any(mentions_target(rules, target) for target in ("noparent", "active"))
        }
        self.jobs = [self.job(own, ring) for own, ring in shares]
        self.together = frozenset().union(*map(own_of, self.jobs))

    def derived(self, names):
        lots = tuple(lot for lot in self.sources.lots if lot.name in names)
        return derived(self.budget, replace(self.sources, lots=lots))

    def job(self, own, ring):
        derivation = self.derived(own + ring)
        return Job(own, ring, members_of(derivation), by_lot(derivation.steps, step_text))

    def are_the_town(self):
        names = [lot.name for lot in self.sources.lots]
        return self.together == all_of(members_of(self.derived(names)))

    def asks_among(self, members):
        """The shapes that ask."""
        return [shape for shape, kind, _ in members if kind != INSTANCE and shape.symbol in self.asking]

    def chains(self, members):
        """The priorities on the path of each shape, its own the last."""
        priorities = {(shape.lot, shape.path): self.priorities[shape.symbol] for shape, *_ in members}
        return {place: [priorities[place[0], place[1][:i]] for i in range(len(place[1]) + 1)] for place in priorities}

    def sees_alike(self, job):
        """What an own member compares stands in the job's list as in those of the jobs that answer for it."""
        here = all_of(job.members)
        mine, theirs = self.chains(here), self.chains(self.together)
        unlike = [shape for shape, *_ in here & self.together if mine[place_of(shape)] != theirs[place_of(shape)]]
        unlike += [shape for shape, *_ in here ^ self.together]
        return not any(sees(shape, other) for shape in self.asks_among(own_of(job)) for other in unlike)

    def meets_none(self, lot, other, xs, ys):
        return not any(
            meets(met.scope.box, shape.scope.box) for shape in self.asks_among(of(lot, xs)) for met, *_ in of(other, ys)
        )

    def is_settled(self, job, other, x, y):
        """Both derived the second lot alike, or it meets no shape of the first that asks."""
        return (
            of(y, job.members) == of(y, other.members)
            or self.meets_none(x, y, job.members, job.members)
            and self.meets_none(x, y, job.members, other.members)
        )

    def agree_on(self, job, other, x, y):
        """As far as they tell it by steps and boxes."""
        if y in job.own + job.ring and sorted(job.steps[y]) == sorted(other.steps[y]):
            return True
        return not boxes_touch(x, y, job.members, other.members) and not boxes_touch(x, y, job.members, job.members)

    def all_are(self, test):
        return all(
            test(job, other, x, y) for job in self.jobs for other in self.jobs for x in job.own for y in other.own
        )


def by_lot(found, made):
    """What is made of each thing that is found, by the lot of its shape."""
    kept = defaultdict(list)
    for one in found:
        kept[one.shape.lot].append(made(one))
    return kept


def members_of(derivation):
    found = by_lot(derivation.members, lambda member: (member.shape, member.kind, member.which))
    return {lot: frozenset(members) for lot, members in found.items()}


def of(lot, members):
    return members.get(lot, frozenset())


def all_of(members):
    return frozenset().union(*members.values())


def own_of(job):
    return frozenset().union(*(of(lot, job.members) for lot in job.own))


def place_of(shape):
    return shape.lot, shape.path


def sees(shape, other):
    """Where the shape asks."""
    return meets(other.scope.box, shape.scope.box) and not on_path(other, shape)


@lru_cache(maxsize=256)
def hull_of(members):
    """The least box that holds those of all shapes; None where there are none."""
    boxes = [shape.scope.box for shape, *_ in members]
    if not boxes:
        return None
    return Box(tuple(map(min, zip(*(box.low for box in boxes)))), tuple(map(max, zip(*(box.high for box in boxes)))))


def boxes_touch(lot, other, xs, ys):
    one, two = hull_of(of(lot, xs)), hull_of(of(other, ys))
    return (
        one is not None
        and two is not None
        and all(a <= d and c <= b for a, b, c, d in zip(one.low, one.high, two.low, two.high))
    )
