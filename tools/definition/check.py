"""The first fault of a grammar, the rules of a symbol, and what they mention."""
from dataclasses import dataclass
from functools import cached_property
from typing import Tuple

from .fault import Refused
from .rule import Child, Named, Occ, Subdiv

MOST_RULES, MOST_ATTRIBUTES, MILLIONTHS = 512, 128, 1000000


def check_fault(grammar):
    """Raises the first fault of a grammar."""
    if len(grammar.rules) > MOST_RULES:
        raise Refused("TooManyRules")
    if len(grammar.attributes) > MOST_ATTRIBUTES:
        raise Refused("TooManyAttributes")
    attribute_faults(grammar.attributes)
    for at, entry in enumerate(grammar.rules):
        head_faults(grammar, grammar.rules[:at], entry)
        for use in entry.rule.uses:
            use_faults(grammar, entry.rule, use)


def attribute_faults(attributes):
    names = [attribute.name for attribute in attributes]
    for at, name in enumerate(names):
        if name in names[:at]:
            raise Refused("DoubleAttribute", name)


def is_attribute(grammar, name):
    return any(attribute.name == name for attribute in grammar.attributes)


def head_faults(grammar, before, entry):
    rule = entry.rule
    same_symbol = [other for other in before if other.rule.symbol == rule.symbol]
    if any(other.rule.id == rule.id for other in before):
        raise Refused("DoubleId", rule.id)
    if any(other.priority != entry.priority for other in same_symbol):
        raise Refused("SplitPriority", rule.id, rule.symbol)
    if any(len(other.rule.params) != len(rule.params) for other in same_symbol):
        raise Refused("WrongArity", rule.id, rule.symbol)
    for at, name in enumerate(rule.params):
        if name in rule.params[:at] or is_attribute(grammar, name):
            raise Refused("DoubleName", rule.id, name)
    if not are_probabilities([alternative.prob for alternative in rule.alternatives]):
        raise Refused("BadProbability", rule.id)


def are_probabilities(probs):
    """Each is above 0 and a whole number of millionths, and they add up to 1."""
    return all(prob > 0 and (prob * MILLIONTHS).denominator == 1 for prob in probs) and sum(probs) == 1


def use_faults(grammar, rule, use):
    if isinstance(use, Child):
        first = first_entry(grammar, use.symbol)
        if first is None:
            raise Refused("UnknownSymbol", rule.id, use.symbol)
        if len(first.rule.params) != len(use.args):
            raise Refused("WrongArity", rule.id, use.symbol)
    elif isinstance(use, Subdiv):
        if len(use.sizes) == 0 or len(use.sizes) != len(use.bodies):
            raise Refused("PartsDiffer", rule.id)
    elif isinstance(use, Named):
        if use.name not in rule.params and not is_attribute(grammar, use.name):
            raise Refused("UnknownName", rule.id, use.name)


@dataclass(frozen=True)
class Group:
    """The rules of a symbol, by rising id, and their priority."""

    symbol: str
    priority: int
    rules: Tuple

    @cached_property
    def targets(self):
        """The occlusion targets that its conditions ask for."""
        return {use.target for rule in self.rules for use in rule.uses if isinstance(use, Occ)}


def first_entry(grammar, symbol):
    return next((entry for entry in grammar.rules if entry.rule.symbol == symbol), None)


def group(grammar, symbol):
    """None where no rule has the symbol."""
    first = first_entry(grammar, symbol)
    if first is None:
        return None
    rules = [entry.rule for entry in grammar.rules if entry.rule.symbol == symbol]
    return Group(symbol, first.priority, tuple(sorted(rules, key=lambda rule: rule.id)))


def mentions_target(rules, target):
    return target in rules.targets


def names(rule, name):
    """The rule names it, and no parameter of that name hides it."""
    return name not in rule.params and any(isinstance(use, Named) and use.name == name for use in rule.uses)


def mentions_attribute(rules, name):
    return any(names(rule, name) for rule in rules.rules)


def setting_of(grammar, symbol):
    """What the shapes of a symbol read of a grammar: the group, and the values of the attributes that it mentions."""
    rules = group(grammar, symbol)
    values = {
        attribute.name: attribute.value for attribute in grammar.attributes if mentions_attribute(rules, attribute.name)
    }
    return rules, values
