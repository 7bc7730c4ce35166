"""The page of a region in tiles, for browsers on this machine. It is told when the set of tiles is another one, and loads the tiles
that are new by their names."""
import re
import time
from pathlib import Path
from typing import Any

from .page import page
from .serve import OfThisMachine
from .tiles_page import tiles_data

NAME = re.compile(r"/tiles/([\w-]+\.glb|tileset\.json)", re.ASCII)
PATIENCE = 20.0  # seconds after which a page is told that nothing changed
PAUSE = 0.1  # seconds between two looks at the set


class RegionTiles:
    """The tiles of a folder."""

    def __init__(self, folder: Path) -> None:
        self.folder, self.tileset = folder, folder / "tiles" / "tileset.json"
        data = tiles_data(self.tileset, folder / "page.html")
        self.page = page({**data, "follows": True}).encode()

    def stamp(self) -> str:
        """Which set is there, by its file; none where there is none just now."""
        try:
            told = self.tileset.stat()
        except FileNotFoundError:
            return ""
        return f"{told.st_mtime_ns}-{told.st_ino}"

    def after(self, stamp: str) -> str:
        """The stamp of another set than that, as soon as there is one; after some time the same."""
        end = time.monotonic() + PATIENCE
        while self.stamp() in ("", stamp) and time.monotonic() < end:
            time.sleep(PAUSE)
        return self.stamp() or stamp

    def read(self, name: str) -> bytes:
        return (self.folder / "tiles" / name).read_bytes()


def region_handler(tiles: RegionTiles) -> Any:
    class Handler(OfThisMachine):
        def do_GET(self) -> None:
            name, _, stamp = self.path.partition("?")
            found = NAME.fullmatch(name)
            if not self.is_own("Host") or not (found or name in ("/", "/state")):
                return self.answer(404, b"")
            if name == "/":
                return self.answer(200, tiles.page, "text/html; charset=utf-8")
            if name == "/state":
                return self.answer(200, tiles.after(stamp).encode())
            try:
                self.answer(200, tiles.read(found.group(1)), "application/octet-stream")  # type: ignore[union-attr]
            except OSError:
                self.answer(404, b"")

    return Handler
