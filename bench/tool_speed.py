#!/usr/bin/env python3
"""Times the tools on a town of 1,000 lots, 154,912 solids: seconds of processor of the tool itself and of the program that it
runs, and the most memory of each. Each row is a line of a table, and tells the least of some calls.

usage: bench/tool_speed.py [--lots N] [--times N] [--sources KINDS] [--folder FOLDER] [TOOL ..]

KINDS is `script`, `obj` or both with a comma between them. Without a TOOL all are called.
"""
import argparse
import os
import subprocess
import sys
import tempfile
from pathlib import Path
from typing import Dict, List, NamedTuple

TOP = Path(__file__).resolve().parent.parent
sys.path.append(str(Path(__file__).resolve().parent))

from live_speed import town  # noqa: E402

PROGRAM = TOP / "cga_city"
CALLS: Dict[str, List[str]] = {
    "table": ["tools/table", "TOWN"],
    "places": ["tools/places", "TOWN", "places.csv"],
    "merge": ["tools/merge", "TOWN", "merged.obj"],
    "glb": ["tools/glb", "TOWN", "town.glb"],
    "glb --instances": ["tools/glb", "--instances", "TOWN", "instances.glb"],
    "glb --instances --gpu-instancing": ["tools/glb", "--instances", "--gpu-instancing", "TOWN", "packed.glb"],
    "view": ["tools/view", "TOWN", "town.html"],
    "plan": ["tools/plan", "TOWN"],
    "section": ["tools/plan", "TOWN", "--section", "0,30,600,31"],
    "diff": ["tools/diff", "TOWN", "TOWN"],
    "picture": ["tools/picture", "TOWN", "town.png"],
}
# begun as a process of its own, which tells on its last line what it and the programs that it ran took
MEASURED = """
import os, resource, runpy, sys
sys.argv = sys.argv[1:]
sys.path.insert(0, os.path.dirname(sys.argv[0]))
status = 0
try:
    runpy.run_path(sys.argv[0], run_name="__main__")
except SystemExit as end:
    status = end.code
sys.stdout.flush()
for who in (resource.RUSAGE_SELF, resource.RUSAGE_CHILDREN):
    used = resource.getrusage(who)
    print(used.ru_utime + used.ru_stime, used.ru_maxrss, file=sys.stderr)
sys.exit(status)
"""


class Spent(NamedTuple):
    """Seconds and megabytes of a tool, and of the programs that it ran."""

    seconds: float
    memory: float
    programs_seconds: float
    programs_memory: float


def spent(words: List[str], folder: Path) -> Spent:
    done = subprocess.run(
        [sys.executable, "-c", MEASURED, *words],
        cwd=folder,
        stdout=subprocess.DEVNULL,
        stderr=subprocess.PIPE,
        text=True,
    )
    if done.returncode not in (0, 1):
        sys.exit(f"{' '.join(words)} ended with status {done.returncode}: {done.stderr[-300:]}")
    own, programs = (list(map(float, line.split())) for line in done.stderr.split("\n")[-3:-1])
    return Spent(own[0], own[1] / 1024, programs[0], programs[1] / 1024)


def sources(lots: int, kinds: List[str], folder: Path) -> Dict[str, Path]:
    found = {"script": folder / "town.cga", "obj": folder / "town.obj"}
    text = town(lots)
    found["script"].write_text(text)
    if "obj" in kinds:
        with found["obj"].open("w") as file:
            subprocess.run([PROGRAM], input=text + "print\n", stdout=file, text=True, check=True)
    return {kind: found[kind] for kind in kinds}


def main() -> None:
    known = argparse.ArgumentParser(description=__doc__, formatter_class=argparse.RawDescriptionHelpFormatter)
    known.add_argument("--lots", type=int, default=1000)
    known.add_argument("--times", type=int, default=3)
    known.add_argument("--sources", default="script,obj")
    known.add_argument("--folder", type=Path)
    known.add_argument("--top", type=Path, default=TOP, help=argparse.SUPPRESS)
    known.add_argument("tools", nargs="*", metavar="TOOL")
    word = known.parse_args()
    print("| Tool | From | Processor, the program's | Most memory, the program's |\n|---|---|---|---|")
    with tempfile.TemporaryDirectory(dir=word.folder) as folder:
        for kind, source in sources(word.lots, word.sources.split(","), Path(folder)).items():
            for tool in word.tools or CALLS:
                call = [str(source) if part == "TOWN" else part for part in CALLS[tool]]
                words = [os.path.join(word.top, call[0]), *call[1:]]
                used = Spent(*map(min, zip(*(spent(words, Path(folder)) for _ in range(word.times)))))
                print(
                    f"| {tool} | {kind} | {used.seconds:.1f}, {used.programs_seconds:.1f} s "
                    f"| {used.memory:.0f}, {used.programs_memory:.0f} MB |",
                    flush=True,
                )


if __name__ == "__main__":
    main()
