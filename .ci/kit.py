"""The toolchain's kit: which one it is, its check of an edit over the libraries that `rt ci` left, and the same in a copy."""
import functools
import importlib.machinery
import importlib.util
import os
import shutil
import subprocess
import sys
import tempfile
from pathlib import Path
from types import ModuleType
from typing import Dict, List

from bugs import TOP, Bug

sys.path.insert(0, str(TOP / "tools"))

from cga_city_lib.sources import Program, files_below as sources_in  # noqa: E402

ONE = ["--jobs", "1", "--only"]


# ---- which kit


def script() -> Path:
    """The script that `rt` is."""
    found = shutil.which("rt")
    if not found:
        sys.exit("rt isn't on the PATH; put there the folder bin/ of Rattle's toolchain")
    return Path(found).resolve()


@functools.lru_cache(maxsize=None)
def identity() -> str:
    """What tells one kit from another: its line, its scripts, and the prover by its size and time."""
    told = subprocess.run(["rt", "version"], stdout=subprocess.PIPE, check=True).stdout.decode()
    prover = script().with_name("rattle").stat()
    texts = [script().with_name(name).read_text(encoding="utf-8") for name in (script().name, "rtlib.py")]
    return "\n".join([told, f"{prover.st_size} {prover.st_mtime_ns}", *texts])


# ---- the crates


def lines_below(name: str) -> List[str]:
    """The lines of crates.txt of a crate and of those below it."""
    return list(Program(str(TOP), name).crates().values())


def files_below(name: str) -> List[Path]:
    """The sources, definitions and proofs of a crate and of those below it."""
    folders = [TOP / "crates" / crate / part for crate in Program(str(TOP), name).crates() for part in Program.parts]
    return sorted(Path(entry.path) for folder in folders for entry in sources_in(str(folder)))


# ---- a check of an edit


@functools.lru_cache(maxsize=None)
def rt() -> ModuleType:
    """The script, as a module."""
    loader = importlib.machinery.SourceFileLoader("rt_itself", str(script()))
    made = importlib.util.module_from_spec(importlib.util.spec_from_loader("rt_itself", loader))
    sys.modules["rt_itself"] = made
    loader.exec_module(made)
    return made


def has_check() -> bool:
    """Whether the script has the toolchain's own check of an edit, as rattle-kit-13b and 13f have it."""
    return callable(getattr(rt(), "checked", None)) and hasattr(getattr(rt(), "rtlib", None), "crates_below")


def has_libraries(name: str) -> bool:
    """Whether the libraries below a crate are those that `rt ci` left. `rt check` leaves others, each with a stamp."""
    folders = [TOP / "crates" / low / "out" / "rlib" for low in Program(str(TOP), name).crates() if low != name]
    return all((it / f"{it.parent.parent.name}.rlib").is_dir() and not (it / "stamp").exists() for it in folders)


@functools.lru_cache(maxsize=None)
def known() -> Dict[str, object]:
    return {crate.name: crate for crate in rt().rtlib.crates_below(str(TOP))}


def load() -> None:
    """Once in each process that checks, by its main thread: what it begins ends with it."""
    rt().rtlib.guarded()
    known()


def checked_beside(bug: Bug, texts: Dict[str, str], lemmas: str) -> str:
    """What a check of the bug's function says, over the libraries that `rt ci` left. A folder holds the lemmas of the crate
    that earlier checks in it have read."""
    return rt().checked(known()[bug.crate.name], texts, [*ONE, bug.function], lemmas).stdout


class Copy:
    """A copy of the crates, in which `rt check` builds the libraries below a crate."""

    def __enter__(self) -> "Copy":
        self.room = tempfile.TemporaryDirectory(prefix="cga-planted-")
        self.top = Path(self.room.name)
        shutil.copytree(TOP / "crates", self.top / "crates", ignore=shutil.ignore_patterns("out"))
        for name in ("crates.txt", "HANDLES"):
            shutil.copy(TOP / name, self.top)
        return self

    def __exit__(self, *_: object) -> None:
        self.room.cleanup()

    def checked(self, bug: Bug, texts: Dict[str, str]) -> str:
        crate = self.top / "crates" / bug.crate.name
        whole = {path: (crate / path).read_text(encoding="utf-8") for path in texts}
        try:
            for path, text in texts.items():
                (crate / path).write_text(text, encoding="utf-8")
            command = ["rt", "check", *ONE, bug.function]
            return subprocess.run(
                command,
                cwd=crate,
                stdout=subprocess.PIPE,
                stderr=subprocess.STDOUT,
                stdin=subprocess.DEVNULL,
                env=os.environ,
            ).stdout.decode(errors="replace")
        finally:
            for path, text in whole.items():
                (crate / path).write_text(text, encoding="utf-8")
