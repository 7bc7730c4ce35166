"""Rows of a table of a town: sums over the solids of a lot, of a symbol, or of both."""
from collections import Counter
from fractions import Fraction
from typing import Callable, Dict, Optional, Tuple

from .call import WrongValue
from .forms import Form
from .measure import Measure, Measured
from .number_words import check_digits
from .numerals import decimal, rounded
from .progress import counted
from .strangers_text import told

Key = Tuple[str, ...]
HEADS = {"lot": ["lot"], "symbol": ["symbol"], "both": ["lot", "symbol"], "town": []}
KEYS: Dict[str, Callable[[str, str], Key]] = {
    "lot": lambda lot, symbol: (lot,),
    "symbol": lambda lot, symbol: (symbol,),
    "both": lambda lot, symbol: (lot, symbol),
    "town": lambda lot, symbol: (),
}


def fraction_word(word: str) -> Fraction:
    check_digits(word, word)
    if decimal(word) is None:
        raise WrongValue(f"`{told(word)}` isn't a number such as 3 or 2.8")
    return Fraction(word)


def floor_word(word: str) -> Tuple[str, Optional[Fraction]]:
    """A symbol that draws floors, perhaps with the height of a storey behind it."""
    symbol, _, storey = word.partition("=")
    if storey and not fraction_word(storey) > 0:
        raise WrongValue(f"`{told(storey)}` isn't a storey's height, which is above 0")
    return symbol, fraction_word(storey) if storey else None


def shown(number: Optional[Fraction], places: int) -> str:
    return "" if number is None else rounded(number, places)


class Row:
    """Whole numbers that are added up, in steps of which so many make one unit."""

    def __init__(self, one: int) -> None:
        self.one, self.solids, self.meshes, self.unboxed = one, 0, 0, 0
        self.plan = self.side = self.millionths = self.box = self.off = self.volume = self.floors = 0
        self.highest: Optional[Fraction] = None

    def add(self, measure: Measure, number: int, top: Fraction, storeys: int) -> None:
        """As many equal solids, the highest of which ends there."""
        self.solids += number
        self.meshes += number * (measure.front is None)
        self.unboxed += number * (measure.box is None)
        self.plan += number * measure.plan
        self.side += number * measure.side
        self.millionths += number * (measure.front or 0)
        self.box += number * (measure.box or 0)
        self.off += number * measure.slack
        self.volume += number * measure.volume
        self.floors += number * storeys * measure.plan
        if self.highest is None or top > self.highest:
            self.highest = top

    def front(self) -> Fraction:
        return Fraction(self.millionths, 10**6)

    def slack(self) -> Fraction:
        """How much the fronts may be off, where each length is off by a step and each front is rounded."""
        return Fraction(2 * self.off, self.one**2) + Fraction(self.solids, 10**6)

    def cells(self) -> Dict[str, Optional[Fraction]]:
        return {
            "solids": Fraction(self.solids),
            "plan": Fraction(self.plan, 2 * self.one**2),
            "side": Fraction(self.side, 2 * self.one**2),
            "front": self.front(),
            "box": None if self.unboxed else Fraction(self.box, 10**6),
            "volume": Fraction(self.volume, 6 * self.one**3),
            "top": self.highest,
            "floors": Fraction(self.floors, 2 * self.one**2),
        }


def storeys_of(measure: Measure, storey: Optional[Fraction], measured: Measured) -> int:
    """How many whole storeys stand in the solid's height; one where no height of a storey is said."""
    if storey is None:
        return 1
    height = measure.top - measure.low + (not measured.is_exact)
    return int(height // (storey * measured.one))


def rows_of(measured: Measured, by: str, floors: Dict[str, Optional[Fraction]]) -> Dict[Key, Row]:
    """The rows by lot in the town's order, by symbol in the order of names, by both, or the town's. `floors` has a storey's height, or none,
    for each symbol that floors are drawn by."""
    rows: Dict[Key, Row] = {}
    for lot, instances in counted(measured.lots.items(), "lots", len(measured.lots)):
        keys: Dict[str, Key] = {}
        counts = Counter([(one[0], one[1], one[2][1]) for one in instances])
        for (symbol, form, height), number in sorted(counts.items(), key=symbol_of):
            measure = measured.of(form)
            storeys = storeys_of(measure, floors[symbol], measured) if symbol in floors else 0
            key = keys.get(symbol)
            if key is None:
                key = keys[symbol] = KEYS[by](lot, symbol)
                rows.setdefault(key, Row(measured.one))
            rows[key].add(measure, number, measured.height(height) + Fraction(measure.top, measured.one), storeys)
    return dict(sorted(rows.items())) if by == "symbol" else rows


def symbol_of(counted_form: Tuple[Tuple[str, Form, str], int]) -> str:
    return counted_form[0][0]
