#!/usr/bin/env python3
"""planted.py [--all] [--copy] [--jobs N] [NAME ..]: the bugs of crates/*/planted, each refused by the function that it names.

It runs right behind `rt ci`, over the libraries that this leaves in crates/*/out, by the toolchain's own check of an edit. A
bug counts if a goal of its function stays open, and for no other reason. With --copy each bug is planted in a copy, whose
libraries `rt check` builds. What passed is kept in the cache folder of the user, under the sums of all that it rests on;
with --all each bug is tried. The last line is 'N passed, M failed'."""
import argparse
import itertools
import os
import resource
import sys
import tempfile
import time
from concurrent.futures import ProcessPoolExecutor
from typing import Callable, Dict, List, NamedTuple, Tuple

import kit
from bugs import BY_FUNCTION, Bug, applied, bugs_of, crates, cycle_of
from planted_kept import is_kept, keep
from refusal import why_not

MEMORY = 3_500_000_000  # the most that a check takes


class Tried(NamedTuple):
    """What a try came to: why it failed, if it did, and the seconds of processor that it took."""

    fault: str
    seconds: float


def tried(bug: Bug, check: Callable[..., str]) -> Tried:
    texts, fault = applied(bug.edit, bug.crate)
    before = resource.getrusage(resource.RUSAGE_CHILDREN)
    if texts is not None:
        fault = why_not(check(bug, texts), bug.crate.name, bug.function, cycle_of(bug, texts))
    after = resource.getrusage(resource.RUSAGE_CHILDREN)
    it = Tried(fault, after.ru_utime + after.ru_stime - before.ru_utime - before.ru_stime)
    print(f"planted {bug.name}: {it.fault or f'refused by {bug.function}'}, {it.seconds:.0f} s", flush=True)
    if not it.fault:
        keep(bug)
    return it


def tried_beside(bugs: List[Bug]) -> List[Tried]:
    """The bugs of a crate one after the other, so that what they cite of it is read once."""
    with tempfile.TemporaryDirectory(prefix="cga-planted-") as lemmas:
        return [tried(bug, lambda *edit: kit.checked_beside(*edit, lemmas)) for bug in bugs]


def processes() -> int:
    """As many as there are processors and memory for."""
    with open("/proc/meminfo", encoding="ascii") as file:
        free = next(int(line.split()[1]) * 1024 for line in file if line.startswith("MemAvailable"))
    return max(1, min(len(os.sched_getaffinity(0)), free // MEMORY))


def results(bugs: List[Bug], in_copy: bool, jobs: int) -> List[Tuple[Bug, Tried]]:
    """Each bug with what its try came to: crates side by side, or one by one in a copy."""
    if in_copy:
        with kit.Copy() as copy:
            return [(bug, tried(bug, copy.checked)) for bug in bugs]
    by_crate = [list(some) for _, some in itertools.groupby(bugs, key=lambda bug: bug.crate)]
    with ProcessPoolExecutor(jobs or processes(), initializer=kit.load) as pool:
        return [row for some, tries in zip(by_crate, pool.map(tried_beside, by_crate)) for row in zip(some, tries)]


def table(found: List[Tuple[Bug, Tried]]) -> None:
    by_crate: Dict[str, List[float]] = {}
    for bug, it in found:
        by_crate.setdefault(bug.crate.name, []).append(it.seconds)
    for name, seconds in sorted(by_crate.items(), key=lambda row: -max(row[1])):
        print(f"{name}: {len(seconds)} bugs, {sum(seconds) / len(seconds):.0f} s a bug, {max(seconds):.0f} at most")


def size(crate_name: str) -> int:
    """What a check of the crate has to load, for the order of the tries: the dearest first."""
    return sum(file.stat().st_size for file in kit.files_below(crate_name))


def words() -> argparse.Namespace:
    parser = argparse.ArgumentParser(description=__doc__, formatter_class=argparse.RawDescriptionHelpFormatter)
    parser.add_argument("--all", action="store_true", help="take nothing that is kept")
    parser.add_argument("--copy", action="store_true", help="plant them in a copy, whose libraries rt check builds")
    parser.add_argument("--jobs", type=int, default=0, metavar="N", help="so many side by side; else as many as fit")
    parser.add_argument("name", nargs="*", help="crates; all where none is named")
    return parser.parse_args()


def chosen(names: List[str]) -> List[Bug]:
    lacking = sorted(set(names) - {crate.name for crate in crates()})
    if lacking:
        sys.exit(f"planted.py: there is no crate {', '.join(lacking)}; crates.txt has them all")
    return [bug for crate in crates() if not names or crate.name in names for bug in bugs_of(crate, BY_FUNCTION)]


def why_in_copy(bugs: List[Bug]) -> str:
    """Why bugs can't be tried over what `rt ci` left; nothing where they can."""
    if bugs and not kit.has_check():
        return "this kit's rt has no check of an edit"
    lacking = sorted({bug.crate.name for bug in bugs if not kit.has_libraries(bug.crate.name)})
    return f"below {lacking[0]} the libraries in crates/*/out aren't those of rt ci" if lacking else ""


def main() -> int:
    given, begun = words(), time.monotonic()
    every = chosen(given.name)
    new = [bug for bug in every if given.all or not is_kept(bug)]
    new.sort(key=lambda bug: (-size(bug.crate.name), bug.name))
    why = "" if given.copy else why_in_copy(new)
    if why:
        print(f"planted.py: {why}: each bug is planted in a copy, which builds the libraries below its crate")
    found = results(new, given.copy or bool(why), given.jobs) if new else []
    failed = sum(bool(it.fault) for _, it in found)
    table(found)
    minutes = (time.monotonic() - begun) / 60
    print(f"{len(new)} tried in {minutes:.1f} minutes; {len(every) - len(new)} had passed earlier")
    print(f"{len(every) - failed} passed, {failed} failed")
    return 1 if failed else 0


if __name__ == "__main__":
    sys.exit(main())
