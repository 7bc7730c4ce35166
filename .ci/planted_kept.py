"""Which planted bugs passed earlier, by the sums of all files that this rests on, in the cache folder of the user."""
import functools
import hashlib
import os
from pathlib import Path

import kit
from bugs import TOP, Bug

JUDGES = ("bugs.py", "kit.py", "refusal.py")


def folder() -> Path:
    return Path(os.environ.get("XDG_CACHE_HOME") or Path.home() / ".cache") / "cga_city" / "planted"


@functools.lru_cache(maxsize=None)
def sum_of(path: Path) -> str:
    return hashlib.sha256(path.read_bytes()).hexdigest()


@functools.lru_cache(maxsize=None)
def sum_of_crate(name: str) -> str:
    """The kit, how a refusal is judged, the crate's files and lines and those below it."""
    judges = [TOP / ".ci" / name for name in JUDGES]
    files = [*kit.files_below(name), TOP / "HANDLES", *judges]
    said = [kit.identity(), *kit.lines_below(name), *(f"{path.relative_to(TOP)} {sum_of(path)}" for path in files)]
    return hashlib.sha256("\n".join(said).encode()).hexdigest()


def path(bug: Bug) -> Path:
    said = f"{sum_of_crate(bug.crate.name)} {bug.name} {sum_of(bug.edit)}"
    return folder() / hashlib.sha256(said.encode()).hexdigest()


def is_kept(bug: Bug) -> bool:
    return path(bug).exists()


def keep(bug: Bug) -> None:
    """An empty file for a bug that passed. Where the folder can't be written, nothing is kept."""
    try:
        folder().mkdir(parents=True, exist_ok=True)
        path(bug).touch()
    except OSError as fault:
        print(f"planted.py: {fault.filename}: {fault.strerror}: what passed isn't kept")
