#!/usr/bin/env python3
"""Keeps the sums of the sources beside the programs that a gate's run has proved and built, as `./cga_city --prove` does,
so that no call proves them again. Called twice: before the run, to note in a file what is there, and behind it. A program
that the run didn't make is refused, and so is each of them where a source changed meanwhile.
"""
import argparse
import json
import os
import pathlib
import sys
import tempfile

TOP = str(pathlib.Path(__file__).resolve().parent.parent)
sys.path.insert(0, os.path.join(TOP, "tools"))

from cga_city_lib.sources import PROGRAMS, Program  # noqa: E402


def clock():
    """The time by which files are stamped, which isn't to the nanosecond that of the system's clock."""
    with tempfile.NamedTemporaryFile(dir=TOP) as file:
        return os.stat(file.name).st_mtime_ns


def programs():
    return [Program(TOP, name) for name in PROGRAMS if os.path.isdir(os.path.join(TOP, "crates", name))]


def seen(program):
    """What is there of a program: itself, the lines of its crates, and its sources."""
    crates = program.crates()
    own = program.own() if os.path.exists(program.path) else {}
    return {"own": own, "crates": crates, "sources": program.stamps(crates)}


def fault_of(program, begun, before, now):
    """Why the run isn't known to have made the program of these sources; nothing where it is."""
    if not os.access(program.path, os.X_OK):
        return "it isn't there"
    if os.stat(program.path).st_mtime_ns < begun or now["own"] == before["own"]:
        return "it is older than this run, so nobody knows of which sources it was made"
    if any(now[part] != before[part] for part in ("crates", "sources")):
        return "a source changed while it was built"
    return ""


def note(path):
    with open(path, "w", encoding="utf-8") as file:
        json.dump({"begun": clock(), "programs": {program.name: seen(program) for program in programs()}}, file)


def keep(path):
    with open(path, encoding="utf-8") as file:
        noted = json.load(file)
    made = [(program, noted["programs"][program.name], seen(program)) for program in programs()]
    faults = [
        f"{program.path}: {fault}"
        for program, before, now in made
        if (fault := fault_of(program, noted["begun"], before, now))
    ]
    if faults:
        sys.exit("\n".join(f"built.py: {fault}" for fault in faults))
    for program, _, now in made:
        program.keep(now["crates"].values(), program.sums({**now["sources"], **now["own"]}))
    print("the programs are those of these sources")


def main():
    calls = {"before": note, "after": keep}
    parser = argparse.ArgumentParser(description=__doc__, formatter_class=argparse.RawDescriptionHelpFormatter)
    parser.add_argument("call", choices=calls)
    parser.add_argument("file")
    words = parser.parse_args()
    calls[words.call](words.file)


if __name__ == "__main__":
    main()
