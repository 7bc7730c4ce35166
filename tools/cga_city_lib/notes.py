"""What of a script's sources has no effect: rules that are never tried; symbols that nothing reaches; attributes and
parameters that no rule uses."""
from collections import defaultdict
from typing import Any, Dict, Iterable, Iterator, List, Set, Tuple

from .standing import Standing

Placed = Tuple[Any, int]  # a rule, and the place of its line
Note = Tuple[int, str]  # the place of a line, and a sentence
MOST = 5  # names that a note lists


def listed(names: List[str]) -> str:
    shown = ", ".join(f"`{name}`" for name in names[:MOST])
    return shown + (f" and {len(names) - MOST} more" if names[MOST:] else "")


def by_symbol(rules: Dict[int, Placed]) -> Dict[str, List[Placed]]:
    """The rules of each symbol with their places, in the order in which they are tried."""
    found = defaultdict(list)
    for _, (rule, at) in sorted(rules.items()):
        found[rule.symbol].append((rule, at))
    return found


def reached(symbols: Dict[str, List[Placed]], first: Iterable[str]) -> Set[str]:
    """The symbols that these lead to, and these."""
    found, ahead = set(), list(first)
    while ahead:
        symbol = ahead.pop()
        if symbol in symbols and symbol not in found:
            found.add(symbol)
            ahead += [name for rule, _ in symbols[symbol] for name in rule.names - set(rule.parameters)]
    return found


def of_rules(rules: List[Placed]) -> Iterator[Note]:
    """Each rule that comes behind one that is always taken, or taken wherever it would be."""
    for at, (rule, place) in enumerate(rules):
        for earlier, _ in rules[:at]:
            if not earlier.condition:
                yield place, f"rule {rule.number} is never tried: rule {earlier.number} of `{rule.symbol}` has no condition"
                break
            if (earlier.condition, earlier.parameters) == (rule.condition, rule.parameters):
                yield place, f"rule {rule.number} is never tried: rule {earlier.number} of `{rule.symbol}` has the same condition"
                break


def of_symbols(symbols: Dict[str, List[Placed]], lots: Dict[str, Tuple[str, int]]) -> Iterator[Note]:
    """The symbols that no lot comes to; those that only such a symbol makes are told with it."""
    known = reached(symbols, [symbol for symbol, _ in lots.values()]) if lots else set(symbols)
    left = [symbol for symbol in symbols if symbol not in known]
    while left:
        made = {name for symbol in left for rule, _ in symbols[symbol] for name in rule.names if name != symbol}
        head = next((symbol for symbol in left if symbol not in made), left[0])
        below = reached(symbols, [head])
        others = [symbol for symbol in left if symbol in below and symbol != head]
        text = f"nothing reaches `{head}`: no lot begins with it, and no rule that a lot comes to makes it"
        yield symbols[head][0][1], text + (f"; nor {listed(others)}" if others else "")
        left = [symbol for symbol in left if symbol not in below]


def of_attributes(rules: Dict[int, Placed], attributes: Dict[str, int]) -> Iterator[Note]:
    used = {name for rule, _ in rules.values() for name in rule.names}
    for name, place in attributes.items():
        if name not in used:
            yield place, f"no rule uses the attribute `{name}`"


def of_parameters(rules: List[Placed]) -> Iterator[Note]:
    """The parameters of a symbol, by their place, that none of its rules uses."""
    for at, name in enumerate(rules[0][0].parameters):
        if all(rule.parameters[at] not in rule.names for rule, _ in rules if rule.parameters[at:]):
            yield rules[0][
                1
            ], f"the parameter `{name}` of `{rules[0][0].symbol}` has no effect: none of its rules uses it"


def notes(now: Standing) -> List[Note]:
    """All of them, each with the place of its line, by these places."""
    symbols = by_symbol(now.rules)
    found = [*of_symbols(symbols, now.lots), *of_attributes(now.rules, now.attributes)]
    for rules in symbols.values():
        found += [*of_rules(rules), *of_parameters(rules)]
    return sorted(found)
