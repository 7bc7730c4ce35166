"""Builds a program without a proof, one call at a time, and keeps it with the sums of its sources: whole, or not at all."""
import errno
import os
import tempfile
from contextlib import contextmanager
from pathlib import Path
from typing import IO, Iterator, List

from .begun import fail, heeding_signals, last_lines, need_rt, so_far, take
from .kept import NONE, Kept, here, places
from .native import compile_by, kit_here
from .sources import Program, say

NOT_WRITABLE = (errno.EACCES, errno.EPERM, errno.EROFS)


def opened(kept: Kept) -> IO[str]:
    os.makedirs(kept.out, exist_ok=True)
    return open(os.path.join(kept.out, "lock"), "w", encoding="utf-8")


@contextmanager
def place_to_write(top: str, name: str) -> Iterator[Kept]:
    """The first place that can be written, where no other call builds meanwhile."""
    for kept in places(top, name):
        try:
            lock = opened(kept)
        except OSError as fault:
            if fault.errno not in NOT_WRITABLE:
                raise
            continue
        with lock:
            take(lock, f"another call builds {name}; waiting for it")
            yield kept
        return
    fail(f"{name} can't be kept: neither {' nor '.join(kept.out for kept in places(top, name))} can be written")


def tell(what: str) -> None:
    say(f"{what}; {so_far()} so far")


def make(kept: Kept, part: str) -> None:
    """Compiles and links it; the log's end says why it can't be."""
    log = os.path.join(kept.out, "build.log")
    with open(log, "wb") as said, tempfile.TemporaryDirectory(prefix="cga_city-") as work:
        is_made = compile_by(kit_here(), Path(kept.folder), Path(part), Path(work), said, tell)
    if not is_made:
        say(f"{kept.name} was not built; the end of {log}:")
        last_lines(log)
        fail("mend this, and call again")


def build(kept: Kept) -> None:
    """Builds it of the sources as they are at the beginning, and keeps it if they are the same at the end."""
    part = kept.path + ".part"
    lines = kept.lines()
    stamps = kept.stamps(kept.crates())
    sums = kept.sums(stamps)
    try:
        make(kept, part)
        if kept.stamps(kept.crates()) != stamps or kept.lines() != lines:
            fail(f"a source changed while {kept.name} was built, so nobody knows of which it is made: call again")
        os.chmod(part, 0o755)
        os.replace(part, kept.path)
        kept.keep(lines, {**sums, **kept.sums(kept.own())})
    finally:
        if os.path.lexists(part):
            os.unlink(part)


def built(top: str, name: str) -> Program:
    """A program that can be run; it is built where none is here."""
    kind, program, why = here(top, name)
    if kind != NONE:
        return program
    need_rt()
    say(f"{why}; the same code is built without a proof, once, in a minute or two")
    with heeding_signals(), place_to_write(top, name) as kept:
        if kept.fault():
            build(kept)
    return kept


def build_all(top: str, names: List[str]) -> None:
    for name in names:
        built(top, name)
    say("built: " + ", ".join(names))
