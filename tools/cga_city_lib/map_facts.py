"""What a map says of a region's lots, for the tiles: a file for each job, and the ground beside them. Each is named by its
digest, so that a tile is made again where what it says is another thing."""
import json
from pathlib import Path
from typing import Any, Dict, Iterator, Optional, Sequence

from .call import Refused
from .files import write
from .ground_file import Ground, plain, read_ground
from .strangers_text import told

GROUND, FOLDER = "ground.json", "facts"
Facts = Dict[str, Any]  # of each lot its name by the map, and the map's properties


def digest(data: bytes) -> str:
    from hashlib import sha256  # it takes long to load, and most calls need none

    return sha256(data).hexdigest()[:20]


class MapFacts:
    """The ground of a region that has one; else nothing is known of its lots."""

    def __init__(self, path: Optional[Path]):
        self.ground: Optional[Ground] = read_ground(str(path)) if path else None
        self.data = path.read_bytes() if path else b""
        self.name = digest(self.data) if path else ""

    def demand(self, path: Path, lots: Sequence[str]) -> None:
        if self.ground and not self.ground.by_lot.keys() & set(lots):
            raise Refused(
                f"{told(str(path))}: no lot of the script is in it: take the ground that was written beside it"
            )

    def of(self, lots: Sequence[str]) -> Facts:
        plots = [self.ground.by_lot[lot] for lot in lots if lot in self.ground.by_lot] if self.ground else []
        return {
            plot.lot: [plot.name or plot.lot, {word: plain(value) for word, value in plot.properties.items()}]
            for plot in plots
        }

    def save(self, folder: Path) -> None:
        """A copy for the cuts that checks make; none where the last cut had one and this one has none."""
        if self.ground:
            write(folder / GROUND, self.data)
        elif (folder / GROUND).exists():
            (folder / GROUND).unlink()

    def write_for(self, folder: Path, lots: Sequence[str]) -> str:
        """Writes what is known of some lots, and gives the name of the file, or none."""
        found = self.of(lots)
        if not found:
            return ""
        data = json.dumps(found, separators=(",", ":")).encode()
        (folder / FOLDER).mkdir(exist_ok=True)
        write(folder / FOLDER / f"{digest(data)}.json", data)
        return digest(data)


def kept_facts(folder: Path) -> MapFacts:
    """Those of the last cut."""
    path = folder / GROUND
    return MapFacts(path if path.exists() else None)


def read_facts(folder: Path, name: str) -> Facts:
    path = folder / FOLDER / f"{name}.json"
    try:
        data = path.read_bytes()
    except FileNotFoundError:
        data = b""
    if digest(data) != name:
        raise Refused(f"{path} isn't what the cut wrote: cut the script again")
    return json.loads(data)  # type: ignore[no-any-return]


def unused(folder: Path, names: Sequence[str]) -> Iterator[Path]:
    yield from (path for path in folder.glob(f"{FOLDER}/*.json") if path.stem not in names)
