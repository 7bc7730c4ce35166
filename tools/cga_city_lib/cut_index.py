"""What a cut knows beside its plan, for the next cut: digests of all that it was made of. Where one of them isn't as it is told here,
the next cut begins from nothing."""
from pathlib import Path
from typing import Any, List, NamedTuple, Optional, Sequence

from . import sealed
from .plan import FILE as PLAN
from .plan import digest

FILE = "index.json"
FORM = 1


class Index(NamedTuple):
    """Digests of the plan's file, of the script, of the coarser heads' scripts and of what checks have found; where the first lot
    begins, below 0 where lots can't be told by their first word; and the number of districts, where these are whole."""

    form: int
    plan: str
    script: str
    coarser: List[str]
    found: str
    first: int
    districts: Optional[int]


def bytes_in(path: Path) -> bytes:
    return path.read_bytes() if path.is_file() else b""


def first_lot(data: bytes, table: Any) -> int:
    """Where the first lot begins, where each line that begins with `lot` is one as usual, and no other; else below 0."""
    first = data.find(b"\nlot ") + 1
    is_plain = not table.spelt and data.endswith(b"\n") and data.count(b"\nlot ") == len(table)
    return first if is_plain else -1


def save(folder: Path, **told: Any) -> None:
    index = Index(FORM, digest(bytes_in(folder / PLAN)), **told)
    sealed.save(folder / FILE, index._asdict())


def kept_coarser(folder: Path) -> List[str]:
    """The digests of the coarser heads' scripts, by the last cut."""
    try:
        return list(map(str, sealed.read(folder / FILE)["coarser"]))
    except (TypeError, KeyError):
        return ["unknown"]


def read(folder: Path, script: bytes, coarser: Sequence[str], found: bytes) -> Optional[Index]:
    """That of the last cut, if the plan, the script and all else are those of that cut."""
    try:
        index = Index(**sealed.read(folder / FILE))
    except TypeError:
        return None
    now = Index(
        FORM,
        digest(bytes_in(folder / PLAN)),
        digest(script),
        list(coarser),
        digest(found),
        index.first,
        index.districts,
    )
    is_whole = (
        isinstance(index.first, int)
        and 0 < index.first < len(script)
        and script[index.first - 1 : index.first + 4] == b"\nlot "
    )
    return index if index == now and is_whole else None
