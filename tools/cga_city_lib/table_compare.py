"""Two variants of a town side by side: for each lot what it measures in either, by how much it changed, and how."""
from fractions import Fraction
from typing import Any, Dict, Iterator, List, Optional, Tuple

from .measure import Measured
from .table_rows import rows_of, shown

Cells = Dict[str, Optional[Fraction]]
COLUMNS = ("solids", "plan", "volume", "top")


def cells_of(measured: Measured, floors: Dict[str, Optional[Fraction]]) -> Dict[str, Cells]:
    return {lot: row.cells() for (lot,), row in rows_of(measured, "lot", floors).items()}


def change_of(old: Optional[Cells], new: Optional[Cells], columns: Tuple[str, ...]) -> str:
    """In a word how a lot of the second town comes from that of the first."""
    if old is None or new is None:
        return "new" if old is None else "gone"
    return "changed" if any(old[word] != new[word] for word in columns) else "same"


def compared(old: Measured, new: Measured, floors: Any, places: int) -> Iterator[List[str]]:
    """The head, and a row for each lot, in the order of the first town; lots that only the second has follow. Sums end it."""
    columns = COLUMNS + (("floors",) if floors else ())
    yield ["lot", "change", *(f"{word}{end}" for word in columns for end in (" A", " B", " B - A"))]
    first, second = cells_of(old, floors), cells_of(new, floors)
    for lot in dict.fromkeys([*first, *second]):
        before, after = first.get(lot), second.get(lot)
        yield [lot, change_of(before, after, columns), *parts(before, after, columns, places)]
    sums = [sum_of(some, columns) for some in (first, second)]
    yield ["", "sum", *parts(*sums, columns, places)]


def sum_of(some: Dict[str, Cells], columns: Tuple[str, ...]) -> Cells:
    """All lots together; of heights the greatest."""
    found: Cells = {}
    for word in columns:
        numbers = [cells[word] or Fraction(0) for cells in some.values()]
        found[word] = max(numbers, default=Fraction(0)) if word == "top" else sum(numbers, Fraction(0))
    return found


def parts(old: Optional[Cells], new: Optional[Cells], columns: Tuple[str, ...], places: int) -> List[str]:
    found = []
    for word in columns:
        a, b = (cells[word] if cells else None for cells in (old, new))
        both = None if a is None or b is None else b - a
        found += [shown(a, places), shown(b, places), shown(both, places)]
    return found
