#!/usr/bin/env python3
"""budget.py PROGRAM: the instructions that eight works of bench/works.py take a built program, against those that are stored.

valgrind counts them, by its tool callgrind, so the load of the machine and its speed don't matter. A work may take 15 in a
hundred more than .ci/budget.txt says. Of an edit, one line counts, without what comes before it. With --store the numbers are
written there. Where valgrind isn't installed, that is said, and nothing is counted."""
import argparse
import os
import re
import shutil
import subprocess
import sys
import tempfile
from concurrent.futures import ThreadPoolExecutor
from pathlib import Path
from typing import Dict, Iterator, List, Tuple

TOP = Path(__file__).resolve().parent.parent
sys.path.insert(0, str(TOP / "bench"))

from works import Work, works  # noqa: E402

STORED = TOP / ".ci" / "budget.txt"
ROOM = 1.15
WORKS = (
    "200 lots from nothing",
    "4,000 small lots from nothing",
    "one lot's edit, 4,000 small lots",
    "an edit that changes nothing, 4,000 small lots",
    "a rule of all windows, 200 lots",
    "an attribute of one shape, 512 rules, 128 attributes",
    "two chains of depth 256 that ask",
    "model with dressed windows, 100 lots",
)
# the C library copies long texts by an instruction that callgrind counts once for each byte
PLAIN_COPIES = "glibc.cpu.x86_rep_movsb_threshold=0x7fffffff"
HOW = {
    "proved": "the proved program",
    "unproved": "a build without proofs (bench/unproved.py), within some 6 in a hundred",
}


def counted(program: str, script: str) -> int:
    """The instructions of one run."""
    command = ["valgrind", "--tool=callgrind", "--callgrind-out-file=/dev/null", program]
    with tempfile.TemporaryFile() as text:
        text.write(script.encode())
        text.seek(0)
        environment = {**os.environ, "GLIBC_TUNABLES": PLAIN_COPIES}
        ran = subprocess.run(command, stdin=text, stdout=subprocess.DEVNULL, stderr=subprocess.PIPE, env=environment)
    found = re.search(r"Collected : (\d+)", ran.stderr.decode(errors="replace"))
    if ran.returncode or not found:
        sys.exit(
            f"budget.py: {program} ends with status {ran.returncode}: {ran.stderr.decode(errors='replace')[-300:]}"
        )
    return int(found[1])


def reply(program: str, script: str) -> str:
    return subprocess.run([program], input=script.encode(), stdout=subprocess.PIPE, check=True).stdout.decode()


def scripts(program: str, work: Work) -> Tuple[str, str, int]:
    """What comes before a work, the whole script, and how many lines the work has."""
    lines = [line(lambda script: reply(program, script)) if callable(line) else line for line in work.lines]
    return work.before, work.before + "".join(lines), len(lines)


def all_counted(program: str) -> Dict[str, int]:
    """The instructions of a line of each work, several works side by side."""
    chosen = {work.told: scripts(program, work) for work in works() if work.told in WORKS}
    texts = sorted({text for before, whole, _ in chosen.values() for text in (before, whole)}, key=len, reverse=True)
    with ThreadPoolExecutor(len(os.sched_getaffinity(0))) as pool:
        took = dict(zip(texts, pool.map(lambda text: counted(program, text) if text else 0, texts)))
    return {told: (took[whole] - took[before]) // lines for told, (before, whole, lines) in chosen.items()}


def stored() -> Dict[str, int]:
    text = STORED.read_text(encoding="utf-8") if STORED.exists() else ""
    rows = [line.split(" ", 1) for line in text.splitlines() if not line.startswith("#")]
    return {told: int(number) for number, told in rows}


def store(took: Dict[str, int], how: str) -> None:
    head = f"# instructions of a line of each work, as .ci/budget.py --store counted them of {HOW[how]}\n"
    STORED.write_text(head + "".join(f"{took[told]} {told}\n" for told in WORKS), encoding="utf-8")


def rows(took: Dict[str, int], before: Dict[str, int]) -> Iterator[str]:
    for told in WORKS:
        change = 100 * took[told] / before[told] - 100 if before.get(told) else 0
        yield f"{told}: {took[told]:,} instructions, {before.get(told, 0):,} stored, {change:+.1f} in a hundred"


def faults(took: Dict[str, int], before: Dict[str, int]) -> List[str]:
    """The works that take more than is stored and its room, and those of which nothing is stored."""
    over = [told for told in WORKS if told in before and took[told] > ROOM * before[told]]
    return [f"{told} takes {took[told] / before[told]:.2f} times what is stored, 1.15 at most" for told in over] + [
        f"nothing is stored of {told}: .ci/budget.py --store PROGRAM" for told in WORKS if told not in before
    ]


def words() -> argparse.Namespace:
    parser = argparse.ArgumentParser(description=__doc__, formatter_class=argparse.RawDescriptionHelpFormatter)
    parser.add_argument("program", metavar="PROGRAM")
    parser.add_argument("--store", action="store_true", help="write the numbers, those of the proved program")
    parser.add_argument("--unproved", action="store_true", help="with --store: the program is one of bench/unproved.py")
    return parser.parse_args()


def main() -> int:
    given = words()
    if not shutil.which("valgrind"):
        print("budget.py: valgrind isn't installed (Debian: valgrind): no instructions are counted")
        return 0
    if not (os.path.isfile(given.program) and os.access(given.program, os.X_OK)):
        sys.exit(
            f"budget.py: {given.program} is no program that can be run; ./cga_city --prove builds crates/cga_main/out/cga_main"
        )
    took = all_counted(os.path.abspath(given.program))
    if given.store:
        store(took, "unproved" if given.unproved else "proved")
    before = stored()
    found = faults(took, before)
    print("\n".join([*rows(took, before), *found]))
    print(f"{len(WORKS) - len(found)} passed, {len(found)} failed")
    return 1 if found else 0


if __name__ == "__main__":
    sys.exit(main())
