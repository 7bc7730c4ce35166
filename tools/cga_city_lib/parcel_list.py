"""The table of parcels that goes beside a script: each lot with its parcel's sizes and properties, and what was skipped."""
import csv
from fractions import Fraction
from typing import Any, Dict, Iterator, List, TextIO, Tuple

from .lots_found import Found
from .numerals import numeral
from .parcels import Group
from .property_text import shown
from .rectangle import area, room
from .strangers_text import cell, told

COLUMNS = ["lot", "feature", "name", "root", "angle", "area", "rectangle", "limit"]
OVERLAP = "overlap"
SKIPPED = "skipped"
Row = Tuple[int, int, List[Any], Dict[str, Any]]


def parcel_rows(group: Group) -> Iterator[Row]:
    for parcel, box, lot in zip(group.parcels, group.boxes, group.lots):
        own = area(parcel.ring) - sum(map(area, parcel.holes))
        limit = numeral(parcel.properties.get("limit")) or ""
        sizes = [f"{group.angle:g}", f"{own:.2f}", f"{room(box):.2f}", limit]
        head = [lot.name, parcel.number, cell(told(parcel.text)), lot.call]
        yield parcel.number, parcel.part, head + sizes, parcel.properties


def lot_rows(group: Group) -> Iterator[Row]:
    for number, (lot, row) in enumerate(zip(group.lots, group.parcels), 1):
        ground = f"{float(Fraction(lot.ground[2]) * Fraction(lot.ground[3])):.2f}"
        limit = numeral(row.get("limit", "")) or ""
        yield number, 1, [lot.name, number, cell(told(lot.text)), lot.call, "0", ground, ground, limit], row


def property_columns(rows: List[Row]) -> Dict[str, str]:
    """Each property's column, in the order of the map; `name` and `limit` have theirs."""
    found: Dict[str, str] = {}
    for *_, properties in rows:
        for word in properties:
            if word not in ("name", "limit") and word not in found:
                taken = word in (*COLUMNS, OVERLAP, SKIPPED)
                found[word] = f"map_{word}" if taken else word
    return found


def write_list(file: TextIO, found: Found) -> None:
    """A row for each parcel, in the order of the map, and behind them one for each feature that is skipped."""
    rows = [row for group in found.groups for row in (parcel_rows(group) if group.boxes else lot_rows(group))]
    rows.sort(key=lambda row: row[:2])
    columns, out, skips = property_columns(rows), csv.writer(file, lineterminator="\n"), found.skips.found
    last = [OVERLAP] * bool(found.overlaps) + [SKIPPED] * bool(skips)
    out.writerow([*COLUMNS, *(cell(told(head)) for head in columns.values()), *last])
    for *_, cells, properties in rows:
        over = f"{found.overlaps[cells[0]]:.2f}" if cells[0] in found.overlaps else ""
        ends = [over] * bool(found.overlaps) + [""] * bool(skips)
        out.writerow([*cells, *(shown(properties.get(word)) for word in columns), *ends])
    for skip in sorted(skips):
        between = [""] * (len(COLUMNS) - 3 + len(columns) + bool(found.overlaps))
        out.writerow(["", skip.number, cell(told(skip.text)), *between, cell(told(skip.why))])
