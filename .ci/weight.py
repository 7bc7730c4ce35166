#!/usr/bin/env python3
"""weight.py [--store [MINUTES]]: the lines of src, specs and proofs of each crate, against those that are committed.

.ci/weight.txt has a line for each crate, in its wing, and the minutes of processor that its proof and its bugs took. A wing
may grow by 3 in a hundred of its lines. Beyond that it needs a line in the same file, `+ WING LINES: REASON`, whose LINES it
may then grow by. With --store the lines of today are written, and the reasons go; a file MINUTES, as bench/times prints it,
gives the minutes. Each fault has a line, and then the status is 1."""
import argparse
import re
import sys
from pathlib import Path
from typing import Dict, Iterator, List, NamedTuple

TOP = Path(__file__).resolve().parent.parent
STORED = TOP / ".ci" / "weight.txt"
ROOM = 0.03
KINDS = {"src": "*.rt", "specs": "*.antt", "proofs": "*.antt"}
HEAD = """# Lines of src, specs and proofs of each crate, and minutes of processor of its proof and of its bugs, as they were stored.
# The minutes were taken on a machine that other work filled. .ci/weight.py compares, and --store writes.
# `+ WING LINES: REASON` lets a wing grow by more than 3 in a hundred.
"""


class Weight(NamedTuple):
    """The lines of a crate by kind, and the minutes, which have a dash where nobody has taken them."""

    wing: str
    lines: List[int]
    minutes: str


def wings() -> Dict[str, str]:
    """The wing of each crate, by crates.txt."""
    found, wing = {}, ""
    for line in (TOP / "crates.txt").read_text(encoding="utf-8").splitlines():
        head, crate = re.match(r"# wing (\w+):", line), re.match(r"([a-z0-9_]+)[^:#]*:", line)
        wing = head[1] if head else wing
        if crate:
            found[crate[1]] = wing
    return found


def lines_of(crate: str) -> List[int]:
    folders = {kind: TOP / "crates" / crate / kind for kind in KINDS}
    return [sum(file.read_text().count("\n") for file in folders[kind].rglob(KINDS[kind])) for kind in KINDS]


class Stored:
    """The committed list."""

    def __init__(self, text: str):
        self.weights: Dict[str, Weight] = {}
        self.reasons: Dict[str, int] = {}
        for line in text.splitlines():
            reason = re.fullmatch(r"\+ (\w+) (\d+): \S.*", line)
            row = re.fullmatch(r"(\w+) +(\w+) +(\d+) +(\d+) +(\d+) +(\S+ \S+)", line)
            if reason:
                self.reasons[reason[1]] = self.reasons.get(reason[1], 0) + int(reason[2])
            elif row:
                self.weights[row[2]] = Weight(row[1], [int(row[place]) for place in (3, 4, 5)], row[6])
            elif line and not line.startswith("#"):
                sys.exit(f"weight.py: a line of {STORED.relative_to(TOP)} can't be read: {line}")


def by_wing(weights: Dict[str, Weight]) -> Dict[str, int]:
    found: Dict[str, int] = {}
    for weight in weights.values():
        found[weight.wing] = found.get(weight.wing, 0) + sum(weight.lines)
    return found


def faults(stored: Stored, now: Dict[str, Weight]) -> Iterator[str]:
    """The wings that grew beyond their room, and the crates that the list lacks or has too many."""
    before, after = by_wing(stored.weights), by_wing(now)
    for name in sorted(stored.weights.keys() ^ now.keys()):
        yield f"{name} {'is new' if name in now else 'is gone'}: .ci/weight.py --store writes the list"
    for wing, lines in after.items():
        grown, room = lines - before.get(wing, 0), int(before.get(wing, 0) * ROOM) + stored.reasons.get(wing, 0)
        if wing in before and grown > room:
            yield f"wing {wing} grew by {grown:,} lines to {lines:,}, {room:,} at most: + {wing} {grown - room}: REASON"


def rows(stored: Stored, now: Dict[str, Weight]) -> Iterator[str]:
    before = by_wing(stored.weights)
    for wing, lines in by_wing(now).items():
        yield f"{wing}: {lines:,} lines, {lines - before.get(wing, 0):+,}"
    yield f"all: {sum(by_wing(now).values()):,} lines, {sum(by_wing(now).values()) - sum(before.values()):+,}"


def minutes_in(path: Path) -> Dict[str, str]:
    """The minutes of proof with tests, and of bugs, from a table of bench/times."""
    form = re.compile(r"\| (\w+) \| (\d+) \| (\d+) \| (\d+) \|")
    found = [form.match(line) for line in path.read_text(encoding="utf-8").splitlines()]
    return {row[1]: f"{(int(row[2]) + int(row[3])) / 60:.1f} {int(row[4]) / 60:.1f}" for row in found if row}


def store(now: Dict[str, Weight]) -> None:
    width = max(map(len, now))
    lines = [
        f"{weight.wing:8} {name:{width}} "
        + " ".join(f"{number:6}" for number in weight.lines)
        + f"  {weight.minutes}\n"
        for name, weight in now.items()
    ]
    STORED.write_text(HEAD + "".join(lines), encoding="utf-8")


def main() -> int:
    parser = argparse.ArgumentParser(description=__doc__, formatter_class=argparse.RawDescriptionHelpFormatter)
    parser.add_argument("--store", nargs="?", const="", metavar="MINUTES", help="write the list")
    given = parser.parse_args()
    stored = Stored(STORED.read_text(encoding="utf-8") if STORED.exists() else "")
    minutes = {name: weight.minutes for name, weight in stored.weights.items()}
    minutes.update(minutes_in(Path(given.store)) if given.store else {})
    now = {name: Weight(wing, lines_of(name), minutes.get(name, "- -")) for name, wing in wings().items()}
    if given.store is not None:
        store(now)
        return 0
    found = list(faults(stored, now))
    print("\n".join([*rows(stored, now), *found]))
    print(f"{len(found)} faults of weight")
    return 1 if found else 0


if __name__ == "__main__":
    sys.exit(main())
