#!/usr/bin/env python3
"""Times tools/region on regions of shops: for each a row of the table in docs/DISTRICTS.md. A time is that by the clock from a line
until its reply and all that changed was read: the least, and the middle one.

usage: bench/kept_speed.py [--folder FOLDER] [--lots N] [--most N] [ROW ..]

A ROW is asking, plain or wall of bench/region_speed.py, with N lots in place of 36,000; without one all are printed.
Jobs have 500 lots at most, or as many as --most says: with 1600 there are 36 of 36,000 lots. In the wall they have 200.
"""
import argparse
import statistics
import subprocess
import sys
import tempfile
import time
from pathlib import Path
from typing import Any, Callable, Dict, Iterator, List, Tuple

sys.path[:0] = [str(Path(__file__).resolve().parent.parent / "tools" / "tests")]

from kept_regions import Talk  # noqa: E402
from region_speed import DISTRICTS, REGIONS, TOP, places, write_script  # noqa: E402

WALL = ["--rings", "2", "--lots", "200"]
TURNS = 15
MB = 1024


def processes(pid: int) -> Iterator[int]:
    """The processes that one has begun."""
    yield from map(int, Path(f"/proc/{pid}/task/{pid}/children").read_text().split())


def memory(pid: int) -> float:
    """What a process has resident, in MB."""
    text = Path(f"/proc/{pid}/status").read_text()
    return int(text.split("VmRSS:")[1].split()[0]) / MB if "VmRSS" in text else 0


class Row:
    """A kept region, and what its edits took."""

    def __init__(self, name: str, lots: int, most: int, top: Path) -> None:
        rows = ["--lots", str(most)]
        self.region = REGIONS[name]._replace(lots=lots, words=WALL if name == "wall" else rows)
        self.script, self.folder = top / f"{name}.cga", top / name
        self.corners = list(places(self.region))
        write_script(self.region, self.script)
        cut = [DISTRICTS, "cut", self.script, self.folder, *self.region.words]
        subprocess.run(cut, check=True, stdout=subprocess.DEVNULL)
        begun = time.monotonic()
        self.kept = Talk(TOP / "tools" / "region", self.folder, "--changes")
        self.kept.ask("")
        self.begun = time.monotonic() - begun

    def lot(self, at: int, seed: int = 1, deep: str = "10", by: int = 0) -> str:
        x, z = self.corners[at]
        return f"lot s{at} {seed} {x + by} {z} 8 {deep} shop"

    def took(self, line: str) -> float:
        begun = time.monotonic()
        replies, _ = self.kept.ask(line)
        if replies != ["# ok"]:
            sys.exit(f"{line}: {replies}")
        return time.monotonic() - begun

    def pairs(self, lines: Callable[[int, int], List[str]]) -> List[List[float]]:
        """The times of the first and of the second of two lines, for lots all over the region."""
        far = len(self.corners) // TURNS
        return list(
            map(list, zip(*([self.took(line) for line in lines(turn, turn * far + far // 2)] for turn in range(TURNS))))
        )

    def edits(self) -> Iterator[Tuple[str, List[float]]]:
        yield "a seed", self.pairs(lambda turn, at: [self.lot(at, 5000 + turn)])[0]
        yield "a depth", self.pairs(lambda turn, at: [self.lot(at, deep="9")])[0]
        away, back = self.pairs(lambda turn, at: [f"unlot s{at + 1}", self.lot(at + 1)])
        yield from (("taken away", away), ("put back", back))
        yield "moved far", self.pairs(lambda turn, at: [self.lot(at + 2, by=20000 + 100 * turn)])[0]
        rules = [self.took("put 2 6: party -> NIL"), self.took('put 2 6: party -> I("quad")')]
        yield "a rule of all", rules

    def cells(self) -> List[str]:
        found = [f"{self.begun:.1f}"]
        held = sorted(map(memory, processes(self.kept.live.pid)))
        own = memory(self.kept.live.pid)
        found += [f"{len(held)}", f"{held[0]:.0f}-{held[-1]:.0f}", f"{sum(held):,.0f}", f"{own:,.0f}"]
        for told, times in self.edits():
            unit = 1000 if told != "a rule of all" else 1
            found.append(f"{min(times) * unit:.1f}, {statistics.median(times) * unit:.1f}")
        return found


def main() -> None:
    known: Any = argparse.ArgumentParser(description=__doc__, formatter_class=argparse.RawDescriptionHelpFormatter)
    known.add_argument("--folder")
    known.add_argument("--lots", type=int, default=36000)
    known.add_argument("--most", type=int, default=500)
    known.add_argument("rows", nargs="*", choices=[[], "asking", "plain", "wall"], metavar="ROW")
    words = known.parse_args()
    rows: Dict[str, None] = dict.fromkeys(words.rows or ["asking", "plain", "wall"])
    print(
        "| Region | Begin (s) | Processes | Each (MB) | All (MB) | The tool (MB) | A seed (ms) | A depth (ms) "
        "| Taken away (ms) | Put back (ms) | Moved far (ms) | A rule of all (s) |"
    )
    print("|---" * 12 + "|")
    for name in rows:
        with tempfile.TemporaryDirectory(dir=words.folder) as top:
            row = Row(name, words.lots, words.most, Path(top))
            print("| " + " | ".join([f"{words.lots:,} {name}", *row.cells()]) + " |", flush=True)
            row.kept.close()


if __name__ == "__main__":
    main()
