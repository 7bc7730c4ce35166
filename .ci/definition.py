#!/usr/bin/env python3
"""definition.py PROGRAM: compares the definition in Python, tools/definition, with stored replies and with the program.

The stored scripts are those of rows/ but the large ones, of examples/ and of the documents; random ones are given to the
program too. A script has a limit of processor time; what takes longer is left out, and counted. Two processes share the
work. The last line is 'N passed, M failed', and tells how many scripts were left out.
"""
import argparse
import random
import re
import signal
import subprocess
import sys
import tempfile
from multiprocessing import Pool
from pathlib import Path

TOP = Path(__file__).resolve().parent.parent
sys.dont_write_bytecode = True
sys.path[:0] = [str(TOP / "tools"), str(TOP / "tools" / "tests"), str(TOP / ".ci")]

import random_street  # noqa: E402
import random_scripts  # noqa: E402
from definition.output import output_of  # noqa: E402
from definition.town import town_text  # noqa: E402

LIMIT = 30  # seconds of processor for a script
RANDOM, STREETS, EDITS, SPOILED, LINES = 100, 50, 25, 20, 60
PIECES = """( ) [ ] { } , : | + - * / . = -> == != < <= > >= ! # "X" "front" "cube" "none" "9 " 1r 2.5 0.250r 90 3x 1.x NIL T S Rx I Scope
occ sx rand floor not and or Comp Subdiv Repeat end attr lot order breadth version 2""".split() + [
    "x" * 33,
    "\t",
    "9" * 19,
]
MOST_LATE = 8  # scripts that may take longer than the limit, on a slow machine
# they take some twenty seconds each, since each shape that asks is compared with all
LEFT_OUT = ("village", "twelve_lots_in_a_row")


class Late(Exception):
    """The limit of a script is over."""


def is_over(*_):
    raise Late


def replies_of(script, words):
    """The definition's replies; None where they take too long."""
    given = dict(zip(words[::2], words[1::2]))
    text = town_text(int(given["--town"])) if "--town" in given else script.decode("latin-1")
    signal.signal(signal.SIGPROF, is_over)
    signal.setitimer(signal.ITIMER_PROF, LIMIT)
    try:
        return output_of(int(given.get("--decimals", 6)), text).encode("latin-1")
    except Late:
        return None
    finally:
        signal.setitimer(signal.ITIMER_PROF, 0)


def compared(case):
    """The name of a script, and whether the definition replies as is wanted; None where it takes too long."""
    name, script, words, wanted = case
    found = replies_of(script, words)
    return name, None if found is None else found == wanted


# ---- the scripts


def stored():
    """Each with its words and its stored replies."""
    with tempfile.TemporaryDirectory() as folder:
        subprocess.run([str(TOP / ".ci/scripts.py"), folder, "--small"], check=True, stdout=subprocess.DEVNULL)
        for replies in sorted(Path(folder).glob("*.stdout")):
            script, words = replies.with_suffix(""), replies.with_suffix(".args")
            given = words.read_text(encoding="utf-8").split("\n")[:-1] if words.exists() else []
            yield script.name, script.read_bytes(), given, replies.read_bytes()


def street(seed):
    """Edits of a street of lots that see one another, each followed by reports."""
    draw = random.Random(seed)
    lines = ["version 2\n" + random_street.RULES]
    for _ in range(EDITS):
        lines += [
            random_street.drawn_edit(draw),
            draw.choice(("stats", "faults", "trace", "bill", "stats", "print a")),
        ]
    return "\n".join([*lines, "print", "trace", "dump", ""]).encode()


def spoiled(seed):
    """Lines of which most are faulty: those of real scripts, a few of their pieces taken away, doubled or put in."""
    draw = random.Random(seed)
    lines = ["version 2"]
    for _ in range(LINES):
        line = draw.choice(["put 1 " + draw.choice(random_scripts.RULES), draw.choice(random_scripts.LINES)])
        pieces = re.findall(r"\w+|\s|->|[<>=!]=|.", line)
        for _ in range(draw.randrange(4)):
            at = draw.randrange(len(pieces) + 1)
            pieces[at : at + draw.randrange(2)] = draw.choice([[], [draw.choice(PIECES)], pieces[at : at + 1] * 2])
        lines.append("".join(pieces))
    return "\n".join([*lines, "end", "dump", ""]).encode("latin-1")


def drawn():
    """Random scripts by name."""
    for seed in range(SPOILED):
        yield f"spoiled lines {seed}", spoiled(seed)
    for seed in range(RANDOM):
        yield f"random script {seed}", random_scripts.script(seed)
    for seed in range(STREETS):
        yield f"street {seed}", street(seed)


def replied(program, script):
    return subprocess.run([program], input=script, stdout=subprocess.PIPE, check=True, timeout=120).stdout


# ---- the command


def cases(program):
    for name, script, words, wanted in stored():
        if not any(left in name for left in LEFT_OUT):
            yield name, script, words, wanted
    if program is not None:
        for name, script in drawn():
            yield name, script, [], replied(program, script)


def main():
    parser = argparse.ArgumentParser(description=__doc__, formatter_class=argparse.RawDescriptionHelpFormatter)
    parser.add_argument(
        "program", nargs="?", metavar="PROGRAM", help="the built program; without it stored replies alone count"
    )
    program = parser.parse_args().program
    counts = {True: 0, False: 0, None: 0}
    with Pool(2) as pool:
        for name, same in pool.imap_unordered(compared, cases(program)):
            counts[same] += 1
            if not same:
                print(f"left out, after {LIMIT} seconds: {name}" if same is None else f"differs: {name}")
    print(f"left out: {len(LEFT_OUT)} scripts that take long, and {counts[None]} that took longer than {LIMIT} seconds")
    print(f"{counts[True]} passed, {counts[False]} failed")
    sys.exit(0 if counts[True] and not counts[False] and counts[None] <= MOST_LATE else 1)


if __name__ == "__main__":
    main()
