#!/usr/bin/env python3
"""The tools with the program itself: stored replies are its own, and each command of the stored and of random scripts has
one reply, whether a script is given at once or grows line by line.

usage: tools/tests/with_program.py [--program PATH] [NUMBER [SEED]]
"""
import re
import sys
import tempfile
import unittest
from pathlib import Path

TESTS = Path(__file__).resolve().parent
TOP = TESTS.parent.parent
sys.path[:0] = [str(TESTS), str(TESTS.parent)]

import random_scripts  # noqa: E402
import test_edits  # noqa: E402
from cga_city_lib.program import is_here, ready, run, take_program  # noqa: E402
from cga_city_lib.replies import replies  # noqa: E402
from cga_city_lib.report import Report  # noqa: E402
from cga_city_lib.script import commands, is_open, is_version, lines_of, text_of, without  # noqa: E402
from cga_city_lib.session import Session  # noqa: E402

STORED = [script for folder in ("examples", "rows") for script in sorted((TOP / folder).glob("*.cga"))]
LINTED = sorted((TESTS / "lint").glob("*.cga"))


def same(name, what, one, other):
    if one != other:
        sys.exit(f"differs: {name}: {what}")


def stored(program, script):
    """The replies that the linter's test rests on are the program's."""
    lines = without(lines_of(script.read_bytes()), "quiet", "print")
    asks = [] if any(is_open(command, lines) for command in commands(lines)) else ["faults"]
    kept = script.with_suffix(".replies").read_text(encoding="latin-1").split("\n")[:-1]
    same(script.name, "the stored replies", run(program, text_of(lines + asks))[1], kept)
    traces = script.with_suffix(".traced")
    if traces.exists():
        head = [] if is_version(commands(lines)[0].words) else ["version 2"]
        same(
            script.name,
            "the stored trace",
            run(program, text_of(head + lines + ["trace"]))[1],
            traces.read_text(encoding="latin-1").split("\n")[:-1],
        )


def grown(program, name, data):
    """A script given at once, and in pieces to a running program, comes to the same replies, faults and town."""
    lines, session, whole = lines_of(data), Session(program), Session(program)
    for end in [*range(0, len(lines), 1 + len(lines) // 6), len(lines)]:
        _, _, answers, faults, town = session.ask(lines[:end])
    said, found, all_answers, all_faults, all_town = whole.ask(lines)
    session.close()
    same(name, "the number of replies", len(found), len(answers))
    same(name, "a reply", answers, all_answers)
    same(name, "the faults", faults, all_faults)
    same(name, "the town", (town.texts, town.lots), (all_town.texts, all_town.lots))
    report = list(Report(name, said, found, answers).lines_for(faults))
    same(
        name,
        "what was refused",
        sum(answer[0].startswith("# refused") for answer in answers),
        int(re.search(r": (\d+) refused", report[-1]).group(1)),
    )


def quiet(program, name, data):
    """What a quiet script prints is what the loud one prints without its acceptances."""
    kept = [line for reply in replies(run(program, data)[1]) for line in reply if line != "# ok"]
    lines = lines_of(data)
    loud = [
        reply
        for command, reply in zip(commands(lines), replies(run(program, text_of(without(lines, "quiet")))[1]))
        if command.words != ["quiet"] and reply != ["# ok"]
    ]
    same(name, "what is printed without quiet", kept, [line for reply in loud for line in reply])


def main(words):
    program, words = take_program(words)
    number, seed = [*map(int, words), *[20, 1][len(words) :]]
    for script in LINTED:
        stored(program, script)
    scripts = [(script.name, script.read_bytes()) for script in STORED]
    with tempfile.TemporaryDirectory() as folder:
        random_scripts.main([folder, str(number), str(seed)])
        scripts += [(script.name, script.read_bytes()) for script in sorted(Path(folder).iterdir())]
    for name, data in scripts:
        quiet(program, name, data)
        grown(program, name, data)
    if is_here("cga_live"):
        live = ready(name="cga_live")
        saves = sum(test_edits.check(unittest.TestCase(), live, seed, 25) for seed in range(1, 11))
        print(f"{saves} saves come to the town of a run from nothing")
    else:
        print("SKIPPED: saves sent as edits, since cga_live isn't built")
    print(f"{len(LINTED)} stored replies and {len(scripts)} scripts agree")


if __name__ == "__main__":
    main(sys.argv[1:])
