"""The table of a sheet: a row for each lot with its floor area and limit, and the sums, each with what carries it."""
from fractions import Fraction
from typing import Any, Dict, List, NamedTuple, Optional, Sequence, Tuple

from .call import Refused
from .ground_file import Ground
from .instances import symbols
from .measure import Measured
from .numerals import decimal
from .table_rows import rows_of
from .table_rows import storeys_of as whole_storeys

FLOORS = ("slab", "floor", "storey", "level")  # symbols that are taken for floors where none is said
ADDRESSES = (
    ("address",),
    ("addr:street", "addr:housenumber"),
    ("addr_street", "addr_housenumber"),
    ("street", "number"),
)
PROVED, TESTED = "\u25a0", "\u25a1"  # a full and an empty square


class Row(NamedTuple):
    lot: str
    name: str
    address: str
    plot: Fraction
    floors: int
    gross: Fraction
    height: Fraction
    limit: Optional[Fraction]

    def ratio(self) -> Optional[Fraction]:
        return self.gross / self.plot if self.plot else None

    def above(self) -> Fraction:
        return max(Fraction(0), self.height - self.limit) if self.limit is not None else Fraction(0)


def floors_of(measured: Measured, said: Dict[str, Optional[Fraction]]) -> Dict[str, Optional[Fraction]]:
    """The symbols that floors are drawn by, each with a storey's height where one is said."""
    drawn = symbols(measured.lots)
    for symbol in said:
        if symbol not in drawn:
            raise Refused(f"nothing is drawn by `{symbol}`: name behind --floor a symbol that draws floors")
    return said or {symbol: None for symbol in FLOORS if symbol in drawn}


def address_of(properties: Dict[str, Any]) -> str:
    for words in ADDRESSES:
        parts = [str(properties[word]) for word in words if properties.get(word) not in (None, "")]
        if len(parts) == len(words):
            return " ".join(parts)
    return ""


def storeys_of(measured: Measured, lot: str, floors: Dict[str, Optional[Fraction]]) -> int:
    """How many floors lie over each other in a lot: different heights of its floors, or whole storeys in a mass."""
    heights, most = set(), 0
    for symbol, form, (_, y, _) in measured.lots.get(lot, ()):
        if symbol in floors:
            measure, storey = measured.of(form), floors[symbol]
            heights.add(measured.height(y) + Fraction(measure.low, measured.one))
            if storey is not None:
                most = max(most, whole_storeys(measure, storey, measured))
    return most or len(heights)


def limit_of(properties: Dict[str, Any], limits: Sequence[Tuple[str, str, Fraction]]) -> Optional[Fraction]:
    """A lot's own limit, else that of a property of a value, such as its zone."""
    own = decimal(str(properties.get("limit", "")))
    if own is not None:
        return Fraction(own)
    return next((limit for word, value, limit in limits if str(properties.get(word)) == value), None)


def rows_for(measured: Measured, ground: Ground, floors: Any, limits: Sequence[Tuple[str, str, Fraction]]) -> List[Row]:
    """The rows in the order of the map."""
    sums, found = rows_of(measured, "lot", floors), []
    for plot in ground.plots:
        cells = sums[(plot.lot,)].cells() if (plot.lot,) in sums else {"floors": Fraction(0), "top": Fraction(0)}
        limit, storeys = limit_of(plot.properties, limits), storeys_of(measured, plot.lot, floors)
        size = Fraction(round(plot.area * 100), 100)
        told = (plot.name or plot.lot, address_of(plot.properties))
        found.append(Row(plot.lot, *told, size, storeys, cells["floors"], cells["top"], limit))
    return found


class Bill(NamedTuple):
    """What the program's bills say of a symbol, over all runs: how many solids, and width times height times depth."""

    number: int
    box: Fraction


def bills_of(reports: List[List[str]]) -> Dict[str, Bill]:
    found: Dict[str, Bill] = {}
    for line in (line for lines in reports for line in lines):
        words = line.split()
        if len(words) == 7 and words[:2] == ["#", "bill"]:
            old = found.get(words[2], Bill(0, Fraction(0)))
            found[words[2]] = Bill(old.number + int(words[3]), old.box + Fraction(words[5]))
    return found


def fraction_of(number: Optional[Fraction], places: int) -> str:
    return "" if number is None else f"{float(number):,.{places}f}"


def volume_by(measured: Measured, floors: Sequence[str]) -> Fraction:
    rows = rows_of(measured, "symbol", {})
    return sum((rows[(symbol,)].cells()["volume"] for symbol in floors if (symbol,) in rows), Fraction(0))


def carried(
    measured: Measured, floors: Any, rows: List[Row], bills: Dict[str, Bill], is_proved: bool
) -> List[Tuple[str, str, str]]:
    """The sums with their marks: which of them the proved program printed, and which the tools work out."""
    mark = PROVED if is_proved else TESTED
    gross, plot = sum((row.gross for row in rows), Fraction(0)), sum((row.plot for row in rows), Fraction(0))
    solids = sum(bill.number for bill in bills.values())
    over = sum(row.above() > 0 for row in rows)
    found = [
        (TESTED, "gross floor area, m\u00b2", fraction_of(gross, 2)),
        (TESTED, "plots, m\u00b2", fraction_of(plot, 2)),
        (TESTED, "floor area ratio", fraction_of(gross / plot if plot else None, 2)),
        (TESTED, "lots above their limit", str(over)),
        (mark, "solids, by the bills of the runs", f"{solids:,}"),
    ]
    if floors:
        box = sum((bills[symbol].box for symbol in floors if symbol in bills), Fraction(0))
        found.append((mark, "volume of floors by the bills, m\u00b3", fraction_of(box, 2)))
        found.append((TESTED, "the same from the drawing, m\u00b3", fraction_of(volume_by(measured, list(floors)), 2)))
    return found
