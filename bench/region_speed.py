#!/usr/bin/env python3
"""Times tools/districts on regions of shops: for each a row of the table in docs/DISTRICTS.md. Times are seconds of processor,
user and system, of all processes of a step; the jobs are run by the program, as many at once as there are workers. A join
and tiles are told without the check that they begin with.

usage: bench/region_speed.py [--program PATH] [--folder FOLDER] [--workers N] [ROW ..]

PROGRAM is that of crates/cga_hulls, N is the number of processors if it isn't said, and FOLDER is for the files, of which a row needs up to 7 GB; a row's are taken away after it. A ROW
is a word of those that --help lists; without one all rows are printed, which takes half an hour.
"""
import argparse
import math
import os
import re
import shutil
import sys
import tempfile
from collections import namedtuple
from pathlib import Path

TOP = Path(__file__).resolve().parent.parent
sys.path.insert(0, str(TOP / "tools"))

from cga_city_lib.rectangle import turned  # noqa: E402

DISTRICTS, HULLS = TOP / "tools" / "districts", TOP / "crates" / "cga_hulls" / "out" / "cga_hulls"
SHOPS = TOP / "tools" / "tests" / "districts" / "row_of_shops.cga"
ANGLES = 90
CONDITION = ' : Scope.occ("noparent") == "none"'

Region = namedtuple("Region", "told lots form asks words steps")
ALL = "cut jobs check join tiles".split()
RINGS = ["--rings", "2", "--lots", "1000"]


def edited(lots, told, form, words=()):
    """A region of which one lot is edited once all jobs were run: two rows."""
    return Region(f"{lots:,} lots that ask{told}", lots, form, True, list(words), ALL[:3])


REGIONS = {
    "asking": Region("36,000 lots that ask", 36000, "square", True, [], ALL),
    "asking-long": Region("36,000 lots that ask, long", 36000, "long", True, [], ALL),
    "plain": Region("36,000 lots, no rule asks", 36000, "square", False, [], ALL),
    "plain-long": Region("36,000 lots, no rule asks, long", 36000, "long", False, [], ALL),
    "large": Region("252,000 lots that ask", 252000, "square", True, [], ALL),
    "large-long": Region("252,000 lots that ask, long", 252000, "long", True, [], ALL),
    "large-plain": Region("252,000 lots, no rule asks", 252000, "square", False, [], ALL),
    "large-plain-long": Region("252,000 lots, no rule asks, long", 252000, "long", False, [], ALL),
    "wall": Region(
        "a wall of 3,600 lots that ask, with 2 rings and 400 lots a job",
        3600,
        "wall",
        True,
        ["--rings", "2", "--lots", "400"],
        ALL,
    ),
    "large-wall": Region(
        "a wall of 99,856 lots that ask, with 2 rings and 1,000 lots a job", 99856, "wall", True, RINGS, ALL
    ),
    "turned": Region("4,000 lots that ask, at 90 angles", 4000, "turned", True, [], ALL),
    "turned-edit": edited(4000, ", at 90 angles", "turned"),
    "edit": edited(36000, "", "square"),
    "long-edit": edited(36000, ", long", "long"),
    "wall-edit": edited(36100, ", a wall, 2 rings", "wall", RINGS),
    "large-edit": edited(252000, "", "square"),
    "large-long-edit": edited(252000, ", long", "long"),
    "large-wall-edit": edited(252004, ", a wall, 2 rings", "wall", RINGS),
    "million-edit": edited(1000000, "", "square"),
    "million-long-edit": edited(1000000, ", long", "long"),
    "million-wall-edit": edited(1000000, ", a wall, 2 rings", "wall", RINGS),
}


def places(region):
    """The corners of the lots: rows of four with streets between them, in a square or in one line, or all wall to wall."""
    if region.form == "wall":
        side = math.isqrt(region.lots)
        return ((at % side * 8, at // side * 10) for at in range(region.lots))
    if region.form == "turned":
        side = math.isqrt(ANGLES - 1) + 1  # each angle has a street of its own
        return (turned_street(at % ANGLES, at // ANGLES, side) for at in range(region.lots))
    if region.form == "long":
        return ((at % 4 * 8, at // 4 * 25) for at in range(region.lots))
    groups = math.isqrt(region.lots * 25 // 160)  # of four, side by side
    return ((at // 4 % groups * 40 + at % 4 * 8, at // 4 // groups * 25) for at in range(region.lots))


def turned_street(number, at, side):
    """The corner of a lot of a street, in the frame of the street's angle: rows of four, with streets between them."""
    x, z = turned((number % side * 200, number // side * 400), number)
    return round(x) + at % 4 * 8, round(z) + at // 4 * 25


def write_script(region, path, seeds=()):
    """The region's script; some lots may have another seed."""
    lines = SHOPS.read_text(encoding="latin-1").split("\n")
    head = lines[: lines.index("end") + 1]
    if not region.asks:
        head = [line.replace(CONDITION, "") for line in head]
    with path.open("w", encoding="latin-1") as file:
        file.write("\n".join(head) + "\n")
        for at, (x, z) in enumerate(places(region)):
            turn = f" turned {at % ANGLES}" if region.form == "turned" and at % ANGLES else ""
            file.write(f"lot s{at} {at % 1000 + (at in seeds)} {x} {z} 8 10 shop{turn}\n")


Spent = namedtuple("Spent", "seconds memory said")


def run(*words, accepted=(0,)):
    """The seconds of processor of a call with all that it waited for, the most memory of one process, and what it printed."""
    with tempfile.TemporaryFile() as said:
        child = os.posix_spawnp(
            str(words[0]), list(map(str, words)), os.environ, file_actions=[(os.POSIX_SPAWN_DUP2, said.fileno(), 1)]
        )
        _, status, usage = os.wait4(child, 0)
        said.seek(0)
        text = said.read().decode("utf-8", "replace")
    if os.waitstatus_to_exitcode(status) not in accepted:
        sys.exit(f"{' '.join(map(str, words))} ended with status {os.waitstatus_to_exitcode(status)}: {text}")
    return Spent(usage.ru_utime + usage.ru_stime, usage.ru_maxrss, text)


def run_jobs(folder, workers):
    """Runs what is to be run, some jobs for each call of a shell."""
    with (folder / "names").open("w", encoding="ascii") as file:
        file.write(run(DISTRICTS, "todo", folder).said)
    return run("sh", "-c", 'xargs -P "$1" -n 4 sh "$0/job" <"$0/names"', folder, workers)


def measured(region, script, folder, program, workers):
    """The steps of a region by name, each with what it took. A check that isn't content runs the next round."""
    spent = {"cut": run(DISTRICTS, "cut", script, folder, "--program", program, *region.words)}
    said = spent["cut"].said
    spent["jobs"] = run_jobs(folder, workers)
    for step in region.steps[2:]:
        words = [DISTRICTS, step, folder, *(["--workers", workers] if step in ALL[3:] else [])]
        spent[step] = run(*words, accepted=(0, 3))
        if spent[step].said == "":
            said = "more than one round: " + said
            run_jobs(folder, workers)
            spent[step] = run(*words)
    return spent, said


def row(name, top, program, workers):
    """Prints the row of a region; where one of its lots is edited, that of the edit, too."""
    region, script, folder = REGIONS[name], top / f"{name}.cga", top / name
    write_script(region, script)
    told(region.told, *measured(region, script, folder, program, workers), folder)
    if name.endswith("edit"):
        write_script(region, script, seeds={region.lots // 2})
        told("one lot's edit there", *measured(region, script, folder, program, workers), folder)
    shutil.rmtree(folder)
    script.unlink()


def told(name, spent, said, folder):
    less = spent["check"].seconds if "check" in spent else 0  # a join and tiles begin with a check
    cells = [f"{spent[step].seconds - (less if step in ALL[3:] else 0):.1f}" if step in spent else "" for step in ALL]
    town = folder / "town.obj"
    cells.append(f"{town.stat().st_size / 10 ** 6:,.0f} MB" if town.exists() else "")
    memory = max(spent[step].memory for step in spent if step != "jobs") / 1024
    jobs = int(re.search(r"(\d+) to run" if name.startswith("one") else r"(\d+) jobs", said).group(1))
    cells += [f"{memory:,.0f} MB", f"{spent['jobs'].memory / 1024:,.0f} MB"]
    more = f" ({said.split(': ')[0]})" if said.startswith("more") else ""
    print(f"| {name} | {jobs:,} | " + " | ".join(cells) + " |" + more, flush=True)


def main():
    known = argparse.ArgumentParser(description=__doc__, formatter_class=argparse.RawDescriptionHelpFormatter)
    known.add_argument("--program", default=HULLS)
    known.add_argument("--folder", type=Path)
    known.add_argument("--workers", type=int, default=os.cpu_count() or 1)
    known.add_argument("rows", nargs="*", choices=[[], *REGIONS], metavar="ROW", help=", ".join(REGIONS))
    words = known.parse_args()
    print("| Region | Jobs | Cut | Run of the jobs | Check | Join | Tiles | Joined | Most memory | of a job |")
    print("|---|---|---|---|---|---|---|---|---|---|")
    with tempfile.TemporaryDirectory(dir=words.folder) as folder:
        for name in words.rows or REGIONS:
            row(name, Path(folder), Path(words.program).resolve(), words.workers)


if __name__ == "__main__":
    main()
