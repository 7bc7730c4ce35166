"""The derivation: one plain list of members, of which at each step the waiting one of least rank is expanded."""
from dataclasses import dataclass
from functools import lru_cache
from heapq import heapify, heappop, heappush
from typing import Dict, List

from .asked import answers_of
from .check import group
from .expand import children_of
from .fault import Fault
from .sources import BREADTH, Shape, root_of

WAITING, DONE, FAULTED, INSTANCE = "waiting", "done", "faulted", "instance"


@dataclass
class Placed:
    """A member: its kind, with the fault of a faulted one and the solid of an instance."""

    shape: Shape
    kind: str
    which: str = ""


@dataclass
class TraceStep:
    """What a step told: the shape that it took, the answers, and the number of children or the fault."""

    shape: Shape
    answers: Dict
    outcome: object


@dataclass
class Derivation:
    """A configuration in which nothing waits, and the steps that led to it."""

    members: List
    steps: List


def rank_of(mode, priority, shape):
    """Smaller is earlier; of two paths a proper prefix is earlier, as Python compares tuples."""
    if mode == BREADTH:
        return priority, len(shape.path), shape.lot, shape.path
    return priority, shape.lot, shape.path


class Configuration:
    """The list of members. Beside it stand the ranks of those that wait, so that the least is found without a scan."""

    def __init__(self, sources):
        self.sources = sources
        self.attributes = {attribute.name: attribute.value for attribute in sources.grammar.attributes}
        self.groups = {entry.rule.symbol: group(sources.grammar, entry.rule.symbol) for entry in sources.grammar.rules}
        self.members = [Placed(root_of(lot), WAITING) for lot in sources.lots]
        self.waiting = [self.ranked(at) for at in range(len(self.members))]
        heapify(self.waiting)

    def ranked(self, at):
        shape = self.members[at].shape
        return rank_of(self.sources.mode, self.groups[shape.symbol].priority, shape), at

    def next_of(self):
        """The member that a step takes; None where nothing waits."""
        return self.members[self.waiting[0][1]] if self.waiting else None

    def asked(self, shape):
        """The answers over all members, and over those that wait."""
        existing = (member.shape for member in self.members)
        waiting = (member.shape for member in self.members if member.kind == WAITING)
        return answers_of(self.groups[shape.symbol], shape, existing, waiting)

    def outcome(self, shape, answers):
        """The children, or the fault."""
        return children_of(self.attributes, self.groups[shape.symbol], shape, answers)

    def step(self):
        """One step, where something waits."""
        member = self.next_of()
        answers = self.asked(member.shape)
        heappop(self.waiting)
        try:
            children = self.outcome(member.shape, answers)
        except Fault as fault:
            member.kind, member.which = FAULTED, fault.code
            return TraceStep(member.shape, answers, fault.code)
        member.kind = DONE
        for shape, solid in children:
            self.add(shape, solid)
        return TraceStep(member.shape, answers, len(children))

    def add(self, shape, solid):
        """A symbol waits, and a solid is an instance."""
        self.members.append(Placed(shape, INSTANCE, solid) if solid else Placed(shape, WAITING))
        if not solid:
            heappush(self.waiting, self.ranked(len(self.members) - 1))


@lru_cache(maxsize=4)
def derived(budget, sources):
    """The derivation of the sources from nothing; None where a configuration with more members than the budget is reached.
    The last few are remembered, since each line asks for those of the sources before it again."""
    configuration, steps = Configuration(sources), []
    while configuration.next_of() is not None and len(configuration.members) <= budget:
        steps.append(configuration.step())
    return None if len(configuration.members) > budget else Derivation(configuration.members, steps)


def members(budget, sources):
    return derived(budget, sources).members


def run_to(sources, budget):
    """The steps until nothing waits."""
    return derived(budget, sources).steps
