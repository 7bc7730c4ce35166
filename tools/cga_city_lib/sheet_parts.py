"""The parts of a sheet that are text: the table, the legend, the title block and the frame around all."""
import math
from typing import Any, List, Sequence, Tuple

from .call import Refused
from .colours import colour_of
from .sheet import INK, INKSCAPE, clean, short
from .sheet_sums import PROVED, Row, fraction_of
from .strangers_text import told

SMALL, LINE = 2.0, 2.65  # the height of letters and of a row
HEADS = ("lot", "address", "plot m\u00b2", "floors", "GFA m\u00b2", "ratio", "height", "limit", "above")
WIDTHS = (22.0, 24.0, 13.0, 9.0, 15.0, 9.0, 10.5, 9.0, 9.0)
MOST_FIELDS = 12
RED = "#b00000"


def text(x: float, y: float, words: str, size: float = SMALL, end: bool = False, more: str = "") -> str:
    anchor = ' text-anchor="end"' if end else ""
    return f'<text x="{short(x)}" y="{short(y)}" font-size="{size:g}"{anchor}{more}>{clean(words)}</text>'


def rule(x: float, y: float, width: float, wide: float = 0.12) -> str:
    return f'<path d="M{short(x)},{short(y)}h{short(width)}" stroke="{INK}" stroke-width="{wide:g}"/>'


def cells_of(row: Row) -> List[str]:
    above = row.above()
    return [
        row.name,
        row.address,
        fraction_of(row.plot, 1),
        str(row.floors),
        fraction_of(row.gross, 1),
        fraction_of(row.ratio(), 2),
        fraction_of(row.height, 2),
        fraction_of(row.limit, 2),
        f"+{fraction_of(above, 2)}" if above else "",
    ]


def fitted(words: str, width: float, size: float = SMALL) -> str:
    """Text that has room in a cell; what has none is cut, and says so by dots."""
    most = max(3, int(width / (0.5 * size)))
    return words if len(words) <= most else words[: most - 2] + ".."


def columns(rows: Sequence[Row], width: float) -> List[Tuple[int, float]]:
    """Which columns are there, and how wide; addresses only where the map has some."""
    kept = [k for k in range(len(HEADS)) if k != 1 or any(row.address for row in rows)]
    stretch = width / sum(WIDTHS[k] for k in kept)
    return [(k, WIDTHS[k] * stretch) for k in kept]


def table(rows: Sequence[Row], x: float, y: float, width: float, height: float) -> Tuple[List[str], float]:
    """The rows that have room, and where the table ends."""
    shape, lines = columns(rows, width), []
    most = max(1, int((height - 2 * LINE) / LINE))
    shown = rows if len(rows) <= most else rows[: most - 1]
    for number, cells in enumerate([list(HEADS), *map(cells_of, shown)]):
        at, down = x, y + LINE * (number + 0.75)
        for k, wide in shape:
            left = k < 2
            bold = ' font-weight="bold"' if number == 0 else ""
            red = f' fill="{RED}"' if number and k == 8 else ""
            place = at + 0.3 if left else at + wide - 0.6
            lines.append(text(place, down, fitted(cells[k], wide), SMALL, not left, bold + red))
            at += wide
        lines.append(rule(x, y + LINE * (number + 1), width, 0.25 if number == 0 else 0.06))
    end = y + LINE * (len(shown) + 1)
    if len(shown) < len(rows):
        lines.append(text(x, end + 0.8 * LINE, f"and {len(rows) - len(shown):,} more lots, which --table has"))
        end += LINE
    return lines, end


def sums(
    carried: Sequence[Tuple[str, str, str]], is_proved: bool, x: float, y: float, width: float
) -> Tuple[List[str], float]:
    """The sums with their marks, and what the marks say."""
    lines = []
    for mark, words, number in carried:
        y += LINE
        lines += [text(x, y, f"{mark} {words}", SMALL), text(x + width, y, number, SMALL, True, ' font-weight="bold"')]
    proved = (
        "a sum that the proved program printed" if is_proved else "no sum here is proved: the program was run unproved"
    )
    for words in (f"{PROVED} {proved}", "\u25a1 worked out by the tools from printed coordinates: tested, not proved"):
        y += 0.9 * LINE
        lines.append(text(x, y, words, 1.8, False, ' fill="#555"'))
    return lines, y


SIGNS = (
    ("border of a parcel", 'stroke="#333" stroke-width=".18" stroke-dasharray="3 .8 .4 .8"'),
    ("front of a lot", 'stroke="#2456a6" stroke-width=".3"'),
    ("section", 'stroke="#b00" stroke-width=".35" stroke-dasharray="6 1.5 1 1.5"'),
)


def legend(symbols: Sequence[str], x: float, y: float, width: float, height: float) -> List[str]:
    """Lines of the plan, and the colours of symbols, as many as have room."""
    lines, place = [text(x, y + 2.6, "Legend", 2.6, False, ' font-weight="bold"')], 0
    signs = [(words, f'<path d="M0,0h7" fill="none" {style}/>') for words, style in SIGNS]
    for symbol in symbols:
        colour = "#{:02x}{:02x}{:02x}".format(*colour_of(symbol))
        signs.append(
            (symbol, f'<rect y="-1.4" width="4" height="2.2" fill="{colour}" stroke="{INK}" stroke-width=".1"/>')
        )
    across, most = 3, max(1, int((height - 4) / LINE))
    rows, wide = min(most, math.ceil(len(signs) / across)), width / across
    for words, sign in signs[: across * rows]:
        left, down = x + wide * (place // rows), y + 4 + LINE * (place % rows + 0.6)
        lines += [
            f'<g transform="translate({short(left)} {short(down)})">{sign}</g>',
            text(left + 8, down + 0.6, fitted(words, wide - 9)),
        ]
        place += 1
    return lines


def read_block(path: str) -> List[Tuple[str, str]]:
    """The lines `word: text` of a file, in its order."""
    with open(path, encoding="utf-8-sig", errors="strict") as file:
        try:
            lines = file.read().splitlines()
        except UnicodeDecodeError:
            raise Refused(f"{path}: isn't text in UTF-8") from None
    found = []
    for number, line in enumerate(lines, 1):
        if not line.strip() or line.lstrip().startswith("#"):
            continue
        word, colon, value = line.partition(":")
        if not colon or not word.strip():
            raise Refused(
                f"{path}:{number}: `{told(line[:40])}` isn't a word, a colon and a text, such as `Project: Bend Street`"
            )
        found.append((word.strip(), value.strip()))
    if len(found) > MOST_FIELDS:
        raise Refused(f"{path}: has {len(found)} lines, and a title block takes {MOST_FIELDS}")
    return found


def block(fields: Sequence[Tuple[str, str]], x: float, y: float, width: float, height: float) -> List[str]:
    """The title block: a line for each field, the first one large."""
    lines = [
        f'<rect x="{short(x)}" y="{short(y)}" width="{short(width)}" height="{short(height)}" fill="none" stroke="{INK}" stroke-width=".35"/>'
    ]
    step = (height - 9) / max(1, len(fields) - 1)
    for number, (word, value) in enumerate(fields):
        down = y + (9 if number == 0 else 9 + step * number)
        size = 4.5 if number == 0 else 2.6
        lines.append(text(x + 2, down - size - 0.3 if number == 0 else down - 1.2, word, 1.7, False, ' fill="#555"'))
        lines.append(
            text(
                x + (2 if number == 0 else 24),
                down - 1.2,
                fitted(value, width - (4 if number == 0 else 27), size),
                size,
                False,
                ' font-weight="bold"' * (number == 0),
            )
        )
        if number:
            lines.append(rule(x, down - step, width, 0.1))
    return lines


def page(paper: Tuple[float, float], title: str, lines: Sequence[Any]) -> str:
    """The whole document."""
    width, height = paper
    head = (
        f'<svg xmlns="http://www.w3.org/2000/svg" xmlns:xlink="http://www.w3.org/1999/xlink" {INKSCAPE} width="{width:g}mm" height="{height:g}mm" '
        f'viewBox="0 0 {width:g} {height:g}" font-family="Helvetica, Arial, sans-serif" fill="{INK}">'
    )
    edge = f'<rect x="5" y="5" width="{width - 10:g}" height="{height - 10:g}" fill="none" stroke="{INK}" stroke-width=".5"/>'
    return "\n".join(
        [
            head,
            f"<title>{clean(title)}</title>",
            '<rect width="100%" height="100%" fill="#fff"/>',
            edge,
            *lines,
            "</svg>",
            "",
        ]
    )
