"""Files that say what another call worked out. The first line is the digest of the rest, so that one that is damaged isn't believed."""
import json
from pathlib import Path
from typing import Any

from .files import write
from .plan import digest


def save(path: Path, held: Any) -> None:
    data = json.dumps(held, separators=(",", ":")).encode()
    write(path, digest(data).encode() + b"\n" + data)


def read(path: Path) -> Any:
    """What the file holds; None where it isn't there or isn't whole."""
    if not path.is_file():
        return None
    known, _, data = path.read_bytes().partition(b"\n")
    return json.loads(data) if known == digest(data).encode() else None
