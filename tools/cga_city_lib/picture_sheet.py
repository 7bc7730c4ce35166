"""Some pictures side by side on a sheet, each with a line below it, as SVG with the pictures in it."""
import base64
from typing import Iterable, List, Tuple
from xml.sax.saxutils import escape

WIDE, HIGH = 480, 300  # of a picture
GAP, LINE = 16, 22
COLUMNS = 4


def sheet(title: str, pictures: Iterable[Tuple[str, bytes]]) -> str:
    """The text of the sheet; a picture is a line and the bytes of a PNG."""
    found = list(pictures)
    columns = min(COLUMNS, len(found)) or 1
    rows = -(-len(found) // columns)
    width, height = columns * (WIDE + GAP) + GAP, rows * (HIGH + LINE + GAP) + 2 * GAP + LINE
    lines: List[str] = [
        f'<svg xmlns="http://www.w3.org/2000/svg" width="{width}" height="{height}" viewBox="0 0 {width} {height}" '
        'font-family="Helvetica, Arial, sans-serif" font-size="14" fill="#1a1a1a">',
        f"<title>{escape(title)}</title>",
        '<rect width="100%" height="100%" fill="#fff"/>',
        f'<text x="{GAP}" y="{GAP + 12}" font-weight="bold">{escape(title)}</text>',
    ]
    for at, (told, data) in enumerate(found):
        x, y = GAP + at % columns * (WIDE + GAP), GAP + LINE + at // columns * (HIGH + LINE + GAP)
        text = base64.b64encode(data).decode("ascii")
        lines.append(f'<image x="{x}" y="{y}" width="{WIDE}" height="{HIGH}" href="data:image/png;base64,{text}"/>')
        lines.append(f'<text x="{x}" y="{y + HIGH + 16}">{escape(told)}</text>')
    return "\n".join([*lines, "</svg>", ""])
