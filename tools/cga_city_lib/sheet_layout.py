"""Where the parts of a sheet stand on its paper, in millimetres."""
from typing import Dict, Tuple

from .frame import Place

PAPERS = {"A3": (420.0, 297.0), "A1": (841.0, 594.0)}
COLUMNS = {"A3": 118.0, "A1": 190.0}  # the column of the table at the right
EDGE, GAP = 10.0, 4.0
ROWS = (("plan", 0.57), ("sections", 0.17), ("front", 0.13), ("back", 0.13))
PICTURE, BLOCK, LEGEND = 0.21, 0.16, 0.08  # of the column's height


def places(paper: str) -> Dict[str, Place]:
    """The frame of each drawing and of each part of the column."""
    (width, height), wide = PAPERS[paper], COLUMNS[paper]
    left, usable = width - EDGE - wide, height - 2 * EDGE
    main = left - EDGE - GAP
    found: Dict[str, Place] = {}
    y = EDGE
    for name, part in ROWS:
        found[name] = (EDGE, y, main, part * usable - GAP)
        y += part * usable
    found["section.A"], found["section.B"] = halves(found.pop("sections"))
    found["perspective"] = (left, EDGE, wide, PICTURE * usable)
    low = height - EDGE - BLOCK * usable
    found["block"] = (left, low, wide, BLOCK * usable)
    found["legend"] = (left, low - LEGEND * usable, wide, LEGEND * usable - GAP)
    top = EDGE + PICTURE * usable + GAP
    found["table"] = (left, top, wide, low - LEGEND * usable - GAP - top)
    return found


def halves(place: Place) -> Tuple[Place, Place]:
    x, y, width, height = place
    half = (width - GAP) / 2
    return (x, y, half, height), (x + half + GAP, y, half, height)
