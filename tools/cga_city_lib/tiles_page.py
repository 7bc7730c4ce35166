"""What a page is given of a region in tiles: where they are, as the page sees it."""
import json
import os
from urllib.parse import quote
from pathlib import Path
from typing import Dict

from .call import Refused


def tiles_data(tileset: Path, page: Path) -> Dict[str, str]:
    try:
        told = json.loads(tileset.read_bytes())
        is_one = told["asset"]["version"] == "1.1" and "boundingVolume" in told["root"]
    except (ValueError, TypeError, KeyError):
        is_one = False
    if not is_one:
        raise Refused(f"{tileset} isn't a tileset.json of 3D Tiles 1.1, which `tools/districts tiles FOLDER` writes")
    return {"title": tileset.absolute().parent.parent.name, "tileset": address(tileset, page)}


def address(tileset: Path, page: Path) -> str:
    """The tileset's path from the page's folder on."""
    return quote(os.path.relpath(tileset, page.absolute().parent).replace(os.sep, "/"))
