"""Which shapes an edit touches, over the derivations of the old and the new sources."""
from .check import first_entry, setting_of
from .derivation import INSTANCE, members, run_to


def non_instances(sources, budget):
    """By lot and path."""
    return {
        (member.shape.lot, member.shape.path): member.shape
        for member in members(budget, sources)
        if member.kind != INSTANCE
    }


def answered(sources, budget):
    """The answers of each shape at its own step."""
    return {(step.shape.lot, step.shape.path): step.answers for step in run_to(sources, budget)}


class Touched:
    def __init__(self, old, new, budget):
        self.old, self.new = old, new
        self.before, self.after = non_instances(old, budget), non_instances(new, budget)
        self.answers, self.new_answers = answered(old, budget), answered(new, budget)
        self.agreed = {}

    def agrees(self, symbol):
        """Whether the priorities of a symbol are equal, and whether its settings are."""
        if symbol not in self.agreed:
            first, other = first_entry(self.old.grammar, symbol), first_entry(self.new.grammar, symbol)
            self.agreed[symbol] = (
                first.priority == other.priority,
                setting_of(self.old.grammar, symbol) == setting_of(self.new.grammar, symbol),
            )
        return self.agreed[symbol]

    def is_same(self, place):
        """A non-instance in both, with equal shape and equal priority of its symbol."""
        shape = self.after[place]
        return self.before.get(place) == shape and self.agrees(shape.symbol)[0]

    def is_kept(self, place):
        """Each prefix of its path, itself included, is the same."""
        lot, path = place
        return self.old.mode == self.new.mode and all(self.is_same((lot, path[:i])) for i in range(len(path) + 1))

    def has_same_inputs(self, place):
        return self.agrees(self.after[place].symbol)[1] and self.answers[place] == self.new_answers[place]

    def is_touched(self, place):
        return not (self.is_kept(place) and self.has_same_inputs(place))


def touched_count(old, new, budget):
    touched = Touched(old, new, budget)
    return sum(touched.is_touched(place) for place in touched.after)
