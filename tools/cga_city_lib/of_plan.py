"""What is made of all jobs of a plan carries the plan's digest, so that none of another plan is taken for it by its time."""
import os
from pathlib import Path
from typing import Iterator

MARK = b"# plan "
TEXTS = ("town.obj", "model.obj", "town.faults", "town.bill", "town.unseen", "counts")
TILESET = "tiles/tileset.json"


def line_of(digest: str) -> bytes:
    """The last line of a text that is made of all jobs."""
    return MARK + digest.encode() + b"\n"


def is_of(path: Path, digest: str) -> bool:
    """Whether the file carries the digest: a text in its last line, and a set of tiles in its first bytes."""
    end = line_of(digest)
    with path.open("rb") as file:
        if path.name == Path(TILESET).name:
            return digest.encode() in file.read(200)
        return file.seek(0, os.SEEK_END) >= len(end) and file.seek(-len(end), os.SEEK_END) >= 0 and file.read() == end


def of_others(folder: Path, digest: str) -> Iterator[Path]:
    """The files that were made of the jobs of another plan."""
    yield from (path for path in map(folder.joinpath, [*TEXTS, TILESET]) if path.is_file() and not is_of(path, digest))


def take_others_away(folder: Path, digest: str) -> None:
    for path in of_others(folder, digest):
        path.unlink()
