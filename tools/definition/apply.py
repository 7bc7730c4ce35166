"""What an edit makes of the sources, or the first cause why it isn't done. An edit is a word and what belongs to it."""
from dataclasses import replace

from .check import check_fault
from .derivation import derived
from .fault import Fault, Refused
from .rule import Attribute, Entry
from .sources import names_of, root_scope

MOST_LOTS = 4096


def is_plain(grammar, symbol):
    """The symbol has rules, and they have no parameters."""
    rules = [entry.rule for entry in grammar.rules if entry.rule.symbol == symbol]
    return bool(rules) and not any(rule.params for rule in rules)


def is_bad(lot):
    """An extent isn't above 0, or the root has no scope."""
    try:
        root_scope(lot)
    except Fault:
        return True
    return lot.width <= 0 or lot.depth <= 0


def with_lot(lot, lots):
    """In the place of the one of its name, or behind all others."""
    if lot.name not in names_of(lots):
        return (*lots, lot)
    return tuple(lot if other.name == lot.name else other for other in lots)


def ranked(grammar):
    """The rules by rising id."""
    return replace(grammar, rules=tuple(sorted(grammar.rules, key=lambda entry: entry.rule.id)))


def rooted(grammar, lots):
    for lot in lots:
        if not is_plain(grammar, lot.symbol):
            raise Refused("NoSymbol", lot.symbol)


def with_checked(sources, grammar):
    check_fault(grammar)
    rooted(grammar, sources.lots)
    return replace(sources, grammar=ranked(grammar))


def rules(sources, grammar):
    return with_checked(sources, grammar)


def put(sources, said):
    priority, rule = said
    others = [entry for entry in sources.grammar.rules if entry.rule.id != rule.id]
    return with_checked(sources, ranked(replace(sources.grammar, rules=(*others, Entry(priority, rule)))))


def drop(sources, rule_id):
    others = tuple(entry for entry in sources.grammar.rules if entry.rule.id != rule_id)
    if len(others) == len(sources.grammar.rules):
        raise Refused("NoRule", rule_id)
    return with_checked(sources, replace(sources.grammar, rules=others))


def set_attribute(sources, said):
    if not any(attribute.name == said.name for attribute in sources.grammar.attributes):
        raise Refused("NoAttribute", said.name)
    attributes = tuple(
        Attribute(said.name, said.value) if attribute.name == said.name else attribute
        for attribute in sources.grammar.attributes
    )
    return replace(sources, grammar=replace(sources.grammar, attributes=attributes))


def set_priority(sources, said):
    symbol, priority = said
    if not any(entry.rule.symbol == symbol for entry in sources.grammar.rules):
        raise Refused("NoSymbol", symbol)
    entries = tuple(
        Entry(priority, entry.rule) if entry.rule.symbol == symbol else entry for entry in sources.grammar.rules
    )
    return replace(sources, grammar=replace(sources.grammar, rules=entries))


def set_lot(sources, lot):
    if not is_plain(sources.grammar, lot.symbol):
        raise Refused("NoSymbol", lot.symbol)
    if is_bad(lot):
        raise Refused("BadLot", lot.name)
    if lot.name not in names_of(sources.lots) and len(sources.lots) >= MOST_LOTS:
        raise Refused("TooManyLots")
    return replace(sources, lots=with_lot(lot, sources.lots))


def unlot(sources, name):
    if name not in names_of(sources.lots):
        raise Refused("NoLot", name)
    return replace(sources, lots=tuple(lot for lot in sources.lots if lot.name != name))


def set_order(sources, mode):
    return replace(sources, mode=mode)


def whole(_, other):
    check_fault(other.grammar)
    if len(other.lots) > MOST_LOTS:
        raise Refused("TooManyLots")
    for lot in other.lots:
        if not is_plain(other.grammar, lot.symbol):
            raise Refused("NoSymbol", lot.symbol)
        if is_bad(lot):
            raise Refused("BadLot", lot.name)
    return replace(other, grammar=ranked(other.grammar))


EDITS = {
    "rules": rules,
    "put": put,
    "drop": drop,
    "attr": set_attribute,
    "priority": set_priority,
    "lot": set_lot,
    "unlot": unlot,
    "order": set_order,
    "whole": whole,
}


def apply(sources, edit, budget):
    """The new sources, or the first refusal; the budget is the last."""
    word, said = edit
    new = EDITS[word](sources, said)
    if derived(budget, new) is None:
        raise Refused("OverBudget")
    return new
