"""A sheet from a map and rules: the parcels become lots, the rules are run, and what comes of it is drawn and summed."""
import csv
import io
from pathlib import Path
from typing import Any, Callable, Dict, List, NamedTuple, Tuple

from .call import Refused
from .files import write, written
from .ground_file import Ground, write_ground
from .ground_solids import box_of, put
from .lot_list import Roots
from .lots_found import Found, check_lots, lots_found
from .instances import Lots, symbols
from .measure import Measured
from .obj import Town
from .obj_instances import from_obj
from .parcel_ground import ground_beside
from .parcel_list import write_list
from .pdf import write_pdf
from .program import LAUNCHER, is_proved
from .rules_file import Rules
from .sheet_dimensions import by_drawing
from .sheet_layout import PAPERS, places
from .sheet_parts import HEADS, LINE, block, cells_of, legend, page, read_block, sums, table, text
from .sheet_sums import Row, bills_of, carried, floors_of, rows_for
from .sheet_views import Style, elevation_view, perspective_view, plan_view, section_lines, section_view
from .skipped import STATUS
from .strangers_text import cell, told
from .turned_town import write_town

MARK = 8.0  # metres around the parcels, within which a section is marked
WALLS, THICKNESS = ("wall", "party", "facade", "window", "door"), 0.3
Say = Callable[[str], None]


class Work(NamedTuple):
    """What a sheet is made of."""

    found: Found
    ground: Ground
    text: str
    lots: Lots
    rows: List[Row]
    floors: Any
    bills: Any
    is_proved: bool


def pdf_of(sheet: str) -> Path:
    return Path(sheet).with_suffix(".pdf")


def is_proved_run(program: str) -> bool:
    """Whether it is the launcher with a proved program; of another program nobody knows."""
    return program == str(LAUNCHER) and is_proved("cga_main")


def worked(word: Any) -> Work:
    rules = Rules(word.rules)
    found = lots_found(word, Roots(rules, word.symbol, dict(word.default)))
    check_lots(found.groups, False)
    ground = ground_beside(found, 0)
    text_of_town = io.StringIO()
    faults, bills = write_town(text_of_town, word.program, rules, found.groups, ("faults", "bill"))
    lots = from_obj(text_of_town.getvalue())[0]
    if not any(lots.values()):
        raise Refused(f"{word.rules}: nothing is drawn on any parcel; tools/lint tells why")
    measured = Measured(lots)
    floors = floors_of(measured, dict(word.floor))
    rows = rows_for(measured, ground, floors, word.limit)
    found.sentences.extend(of_faults(faults))
    return Work(
        found, ground, text_of_town.getvalue(), lots, rows, floors, bills_of(bills), is_proved_run(word.program)
    )


def of_faults(reports: List[List[str]]) -> List[str]:
    faults = [line for lines in reports for line in lines[1:]]
    return [f"{len(faults)} shapes came to nothing, the first: {faults[0][2:]}"] if faults else []


def walls_of(word: Any, lots: Lots) -> Dict[str, float]:
    """The walls that are said, else usual symbols of facades that the town has."""
    return dict(word.wall) or {symbol: THICKNESS for symbol in symbols(lots) if symbol in WALLS}


def views(word: Any, work: Work, where: Any) -> List[List[str]]:
    highest = max(work.rows, key=lambda row: row.height)
    usual = section_lines(work.ground.by_lot[highest.lot], box_of(work.ground, MARK))
    lines = [*word.section, *usual[len(word.section) :]]
    pairs = by_drawing(word.dimension)
    style = Style(walls_of(word, work.lots), list(work.floors), pairs)
    plan, labels = plan_view(work.lots, work.ground, lines, where["plan"], pairs["plan"])
    some = [
        plan,
        *(
            section_view(work.lots, line, letter, where[f"section.{letter}"], style)
            for line, letter in zip(lines, "AB")
        ),
        elevation_view(work.lots, "front", "south", where["front"]),
        elevation_view(work.lots, "back", "north", where["back"]),
    ]
    found = [view.lines for view in some if view]
    if labels.numbered:
        x, y, _, _ = where["plan"]
        found.append([text(x, y + 3, labels.list(), 1.8)])
    return found


def fields_of(word: Any, work: Work) -> List[Tuple[str, str]]:
    """The title block: the file's fields, else what is known of the sheet."""
    if word.block:
        return read_block(word.block)
    place = work.ground.place
    kind = "proved" if work.is_proved else "run without a proof"
    return [
        ("Project", Path(word.map).stem.replace("_", " ")),
        ("Map", Path(word.map).name),
        ("Rules", Path(word.rules).name),
        ("Coordinates", f"{place.system or place.units}, (0, 0) is {', '.join(place.origin)}"),
        ("Lots", f"{len(work.rows):,}, {len(work.found.skips.found):,} features skipped"),
        ("Program", f"cga_city, {kind}"),
    ]


def column(word: Any, work: Work, where: Any) -> List[str]:
    """The table with its sums, the legend and the title block."""
    measured = Measured(work.lots)
    told_sums = carried(measured, work.floors, work.rows, work.bills, work.is_proved)
    x, y, width, height = where["table"]
    lines, end = table(work.rows, x, y, width, height - LINE * (len(told_sums) + 3))
    more, _ = sums(told_sums, work.is_proved, x, end + 1, width)
    return [
        '<g id="table">',
        *lines,
        *more,
        '</g><g id="legend">',
        *legend(symbols(work.lots), *where["legend"]),
        '</g><g id="block">',
        *block(fields_of(word, work), *where["block"]),
        "</g>",
    ]


def write_table(path: str, rows: List[Row]) -> None:
    with written(path, encoding="utf-8", newline="") as file:
        out = csv.writer(file, lineterminator="\n")
        out.writerow(HEADS)
        for row in rows:
            out.writerow([cell(told(one)) if k < 2 else one.replace(",", "") for k, one in enumerate(cells_of(row))])


def made(word: Any, say: Say) -> int:
    """Writes the sheet; gives the status."""
    work = worked(word)
    for sentence in work.found.sentences:
        say(sentence)
    where = places(word.paper)
    drawn = views(word, work, where)
    lines = column(word, work, where)
    title = fields_of(word, work)[0][1]
    seen = put(Town(work.text.split("\n")), work.ground)
    view = perspective_view(seen, title, where["perspective"])
    document = page(PAPERS[word.paper], title, [*(line for part in drawn for line in part), *view.lines, *lines])
    write(Path(word.sheet), document.encode("utf-8", "replace"))
    others(word, work)
    done = write_pdf(Path(word.sheet), pdf_of(word.sheet), PAPERS[word.paper])
    print(
        f"{told(word.sheet)}: {word.paper}, {len(work.rows):,} lots{'; ' + told(str(pdf_of(word.sheet))) if done else ''}"
    )
    if not done:
        say("no PDF is written: install rsvg-convert (Debian: librsvg2-bin) or Chromium, and call it again")
    for sentence in work.found.skips.sentences():
        say(sentence)
    return STATUS if work.found.skips.found else 0


def others(word: Any, work: Work) -> None:
    """The files that go beside the sheet, where they are asked for."""
    if word.table:
        write_table(word.table, work.rows)
    if word.list:
        with written(word.list, encoding="utf-8", newline="") as file:
            write_list(file, work.found)
    if word.ground:
        write_ground(word.ground, work.ground)
