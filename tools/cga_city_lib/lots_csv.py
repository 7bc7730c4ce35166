"""Lots of a table, as spreadsheets write them: cells by commas, semicolons or tabs, in quotes or not, a header first."""
import csv
from fractions import Fraction

from .call import Refused
from .lot_list import COMPASS, OUTWARDS, Lot, named_side, seed_of
from .lot_names import lot_names
from .numerals import numeral
from .strangers_text import told

NEEDED = ("name", "x", "z", "width", "depth")


def rows_of(path):
    """The header, and each row that isn't blank with the number of its line."""
    try:
        with open(path, encoding="utf-8-sig", newline="") as file:
            first = file.readline()
            mark = max(",;\t", key=first.count)
            file.seek(0)
            reader = csv.reader(file, delimiter=mark, strict=True)
            rows = [(reader.line_num, [cell.strip() for cell in row]) for row in reader if any(map(str.strip, row))]
    except csv.Error as fault:
        raise Refused(f"{path}: isn't a table: {fault}") from None
    except UnicodeDecodeError:
        raise Refused(f"{path}: isn't text in UTF-8: save it as CSV in UTF-8") from None
    if not rows:
        raise Refused(f"{path}: is empty: a header and a row for each lot are needed")
    return mark, rows


def header_of(path, cells):
    header = [cell.lower() if cell.lower() in (*NEEDED, "symbol", "seed", "front") else cell for cell in cells]
    missing = [word for word in NEEDED if word not in header]
    twice = [word for word in header if word and header.count(word) > 1]
    if missing or twice:
        raise Refused(
            f"{path}: its header has no `{missing[0]}`: {', '.join(NEEDED)} are needed"
            if missing
            else f"{path}: its header has `{told(twice[0])}` twice"
        )
    return header


def lot_rows(path):
    """Each row as its line's number, its cells by the header, and what is wrong with it."""
    mark, ((_, first), *rows) = rows_of(path)
    header = header_of(path, first)
    for number, cells in rows:
        why = None
        if len(cells) > len(header):
            why = f"has {len(cells)} cells, and the header {len(header)}: put a cell that holds a `{mark}` into quotes"
        if mark == ";":
            cells = [cell.replace(",", ".") if numeral(cell.replace(",", ".")) else cell for cell in cells]
        yield number, dict(zip(header, cells)), why


def number_of(word, row):
    text = numeral(row.get(word, ""))
    if text is None:
        raise Refused(f"its `{word}`, {told(row.get(word, ''))}, isn't a number of at most 18 digits")
    if word in ("width", "depth") and Fraction(text) <= 0:
        raise Refused(f"its `{word}` is {text}, and has to be above 0")
    return text


def lot_of(number, seed, row, why, roots, side):
    """A row's lot, which has no name yet."""
    if why:
        raise Refused(why)
    ground = tuple(number_of(word, row) for word in NEEDED[1:])
    turns = OUTWARDS.index(named_side(row, side) or COMPASS["south"])
    return Lot(f"line {number}", "", row.get("name", ""), seed_of(row, seed), ground, roots.call(row), turns)


def lots_of(path, roots, side, skips):
    """The lots of a table, and what else the row of each has."""
    rows = list(lot_rows(path))
    if not rows:
        raise Refused(f"{path}: has a header and no lots")
    found = []
    for at, (number, row, why) in enumerate(rows, 1):
        lot = skips.tried(number, row.get("name", ""), lambda: lot_of(number, at, row, why, roots, side))
        if lot is not None:
            found.append((at, lot, row))
    skips.check(found)
    names = lot_names([lot.text or f"lot_{at}" for at, lot, _ in found])
    more = [{word: cell for word, cell in row.items() if word not in NEEDED} for _, _, row in found]
    return [lot._replace(name=name) for (_, lot, _), name in zip(found, names)], more
