"""Lots as a script has them, from parcels: the root of each, its numbers and which side is its front."""
from collections import namedtuple
from itertools import count

from .call import Refused
from .lot_names import is_name
from .numerals import numeral
from .strangers_text import told

# place tells where it comes from, as `feature 3`; turns are the quarter turns that bring the front to the lot's high Z
Lot = namedtuple("Lot", "place name text seed ground call turns")
COMPASS = {"south": (0, 1), "east": (1, 0), "north": (0, -1), "west": (-1, 0)}
OUTWARDS = list(COMPASS.values())  # of a lot's sides, as they are counted
TURNS = (
    "{}",
    "T(0, 0, Scope.sz) Ry(90) S(Scope.sz, 1r, Scope.sx) {}",
    "T(Scope.sx, 0, Scope.sz) Ry(180) {}",
    "T(Scope.sx, 0, 0) Ry(270) S(Scope.sz, 1r, Scope.sx) {}",
)


class Roots:
    """How a parcel's root is called: by its symbol, and by its numbers as the parameters of the symbol's rule name them."""

    def __init__(self, rules, symbol, defaults):
        self.rules, self.symbol, self.defaults = rules, symbol or rules.first_symbol(), defaults
        self.replaced = 0  # values that aren't numbers, and that a default stands in for

    def call(self, properties):
        symbol = properties.get("symbol")
        symbol = self.symbol if symbol in (None, "") else symbol
        if not isinstance(symbol, str) or symbol not in self.rules.symbols:
            raise Refused(
                f"no rule of {self.rules.path} has the symbol `{told(symbol)}`: give the parcel another `symbol`, or say --symbol"
            )
        values = [self.value(symbol, word, properties) for word in self.rules.symbols[symbol]]
        return f"{symbol}({', '.join(values)})" if values else symbol

    def value(self, symbol, word, properties):
        given, default = properties.get(word), self.defaults.get(word)
        text = None if given in (None, "") else numeral(given)
        if text is None and default is not None:
            self.replaced += given not in (None, "")
            return default
        if given in (None, ""):
            raise Refused(
                f"has no `{word}`, which `{symbol}` takes: give it to the parcel, or say --default {word}=NUMBER"
            )
        if text is None:
            raise Refused(
                f"its `{word}`, {told(given)}, isn't a number of at most 18 digits; --default {word}=NUMBER stands in for it"
            )
        return text


def seed_of(properties, number):
    given = properties.get("seed")
    text = str(number) if given in (None, "") else numeral(given) or ""
    if not (text.isascii() and text.isdigit()):
        raise Refused(f"its `seed`, {told(given)}, isn't a whole number of at most 18 digits")
    return text


def named_side(properties, side):
    """The direction on the map that the parcel's or the tool's word for its front says, if one does."""
    given = properties.get("front") or side
    if given is not None and not (isinstance(given, str) and given in COMPASS):
        raise Refused(f"its `front`, {told(given)}, isn't one of {', '.join(COMPASS)}")
    return COMPASS.get(given)


def roots(lots, symbols):
    """For each lot the symbol of its root, and the rules that these symbols need beside the others."""
    names, found, rules = (f"parcel_{number}" for number in count(1)), {}, []
    for lot in lots:
        kind = lot.call, lot.turns
        if kind in found:
            continue
        if lot.turns == 0 and is_name(lot.call):
            found[kind] = lot.call
        else:
            found[kind] = next(name for name in names if name not in symbols)
            rules.append((found[kind], TURNS[lot.turns].format(lot.call)))
    return [found[lot.call, lot.turns] for lot in lots], rules


def script_of(rules, lots, angles=()):
    """The lines of the rules and of the lots; for a region each lot may have an angle by which it is turned."""
    symbols, added = roots(lots, rules.symbols)
    turns = [f" turned {angle:.9g}" if angle else "" for angle in angles] or [""] * len(lots)
    lines = [
        f"lot {lot.name} {lot.seed} {' '.join(lot.ground)} {symbol}{turn}  # {noted(lot)}"
        for lot, symbol, turn in zip(lots, symbols, turns)
    ]
    return rules.with_rules(added) + lines


def noted(lot):
    """Where the lot comes from, as bytes of a comment."""
    name = "" if lot.text in (lot.name, "") else f", {told(lot.text)}"
    return f"{lot.place}{name}".encode("utf-8", "replace").decode("latin-1")
