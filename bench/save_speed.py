#!/usr/bin/env python3
"""Times what a preview does for each save, without a browser: a reader asks for changes as its page does, and draws nothing.

usage: bench/save_speed.py [--program PATH] [--page PATH] LOTS ..

Towns and saves are those of bench/page_speed.py, each save once. Told are the processor seconds of the preview's own process
and of its program, which hardly go by what else the machine does, the bytes of the answer, and the time by the clock until
it was there. Behind them eleven edits of all show what memory is kept. With --page each row goes into that page as soon as it is
measured.
"""
import argparse
import json
import os
import re
import struct
import subprocess
import sys
import tempfile
import time
from itertools import chain
from pathlib import Path
from typing import Any, Iterator, List, Optional, Tuple
from urllib.request import urlopen

TOP = Path(__file__).resolve().parent.parent
sys.path.append(str(Path(__file__).resolve().parent))

import page_speed  # noqa: E402
import tables  # noqa: E402
from page_speed import CHANGES, HALVES, TICK, attribute_of_all, turns_of_all  # noqa: E402

SAVES = ["Lots", "What", "Python", "Program", "Bytes sent", "By the clock"]
MEMORY = ["Lots", "Preview after one edit of all", "After ten more"]


def stat_of(pid: Any) -> Tuple[int, float, float]:
    """A process: its parent, and processor seconds of its own and of the children that it has waited for."""
    words = Path(f"/proc/{pid}/stat").read_text(encoding="utf-8", errors="replace").rpartition(")")[2].split()
    own, below = int(words[11]) + int(words[12]), int(words[13]) + int(words[14])
    return int(words[1]), own / TICK, below / TICK


def children_of(pid: int) -> List[int]:
    found: List[int] = []
    for folder in Path("/proc").glob("[0-9]*"):
        try:
            found += [int(folder.name)] * (stat_of(folder.name)[0] == pid)
        except OSError:
            pass  # it has ended
    return found


def seconds_of(process: Any) -> Tuple[float, float]:
    """Processor seconds of a process itself, and of all that it has begun."""
    _, own, below = stat_of(process.pid)
    return own, below + sum(stat_of(child)[1] for child in children_of(process.pid))


def megabytes(pid: int) -> float:
    """What a process has resident, and all below it."""
    words = Path(f"/proc/{pid}/statm").read_text(encoding="ascii").split()
    return int(words[1]) * os.sysconf("SC_PAGE_SIZE") / 1e6 + sum(map(megabytes, children_of(pid)))


class Reader:
    """Asks a preview for what has changed, as its page does."""

    def __init__(self, address: str) -> None:
        self.address, self.stamp, self.save = address, "", 0

    def until(self, save: int) -> int:
        """The bytes of the answers up to that save."""
        size = 0
        while self.save < save:
            with urlopen(f"{self.address}state?{self.stamp}") as answer:
                data = answer.read()
            (length,) = struct.unpack_from("<I", data)
            head = json.loads(data[4 : 4 + length])
            self.stamp, self.save, size = head["stamp"], head.get("save", self.save), size + len(data)
        return size


def begun(program: Optional[str], town: Any) -> "Tuple[subprocess.Popen[str], Reader]":
    words = [TOP / "tools" / "preview", *(["--program", program] if program else []), "--port", "0", town.path]
    preview = subprocess.Popen(list(map(str, words)), stdout=subprocess.PIPE, text=True)
    told = re.match(r"(http://127\.0\.0\.1:\d+/) ", preview.stdout.readline())  # type: ignore[union-attr]
    if not told:
        sys.exit("the preview didn't begin")
    return preview, Reader(told.group(1))


def cells(preview: Any, reader: Reader, save: int, before: Tuple[float, float], from_: float) -> List[str]:
    """What a save took: processor seconds of both, bytes, and the clock."""
    size = reader.until(save)
    spent = [now - was for now, was in zip(seconds_of(preview), before)]
    return [*(f"{seconds:.2f} s" for seconds in spent), f"{size:,}", f"{time.monotonic() - from_:.2f} s"]


def saves(preview: Any, reader: Reader, town: Any) -> Iterator[Tuple[str, List[str]]]:
    """Each kind of save: half of the lots first, so that no other save's lots are among them."""
    for name, change in {**HALVES, **CHANGES}.items():
        before, from_ = seconds_of(preview), time.monotonic()
        change(town, 0)
        town.save()
        yield name, cells(preview, reader, reader.save + 1, before, from_)


def kept(preview: Any, reader: Reader, town: Any) -> Iterator[str]:
    """The memory after one edit of all, and after ten more."""
    turns = turns_of_all(town)
    for turn in turns:
        attribute_of_all(town, turn)
        town.save()
        reader.until(reader.save + 1)
        if turn in (turns[0], turns[-1]):
            yield f"{megabytes(preview.pid):.0f} MB"


def measure(program: Optional[str], folder: str, lots: int, page: Optional[str]) -> None:
    """Tells the rows of a town's saves, and that of its memory."""
    town = page_speed.Town(Path(folder) / f"town{lots}.cga", lots)
    town.save()
    from_ = time.monotonic()
    preview, reader = begun(program, town)
    try:
        first = [("the first town", cells(preview, reader, 1, (0, 0), from_))]
        for name, told in chain(first, saves(preview, reader, town)):
            tables.tell_row(SAVES, [f"{lots:,}", name, *told], 2, page)
        tables.tell_row(MEMORY, [f"{lots:,}", *kept(preview, reader, town)], 1, page)
    finally:
        preview.terminate()
        preview.wait()


def main() -> None:
    parser = argparse.ArgumentParser(
        usage="bench/save_speed.py [--program PATH] [--page PATH] LOTS ..", allow_abbrev=False
    )
    parser.add_argument("--program")
    parser.add_argument("--page")
    parser.add_argument("lots", type=int, nargs="+")
    told = parser.parse_args()
    with tempfile.TemporaryDirectory() as folder:
        for lots in told.lots:
            measure(told.program, folder, lots, told.page)


if __name__ == "__main__":
    main()
