#!/usr/bin/env python3
"""Runs rows with less and less room, a page apart, so that each growth is refused in turn.
Whatever is refused, the program replies as ever, or it ends with status 6 and its line, and what it wrote begins the
replies. The last line is 'N passed, M failed'.
"""
import argparse
import os
import pathlib
import resource
import subprocess
import sys

TOP = pathlib.Path(__file__).resolve().parent.parent
ROWS = ["one_box", "base_mid_and_top", "spelling_of_a_rule", "undone_and_redone"]
PAGE = 4096
# each allocation is a mapping of its own, of whole pages
ALONE = {**os.environ, "MALLOC_MMAP_THRESHOLD_": "1", "MALLOC_MMAP_MAX_": "1000000"}
LINE = b"cga_city: out of memory\n"


def run(program, script, room):
    def limited():
        resource.setrlimit(resource.RLIMIT_AS, (room, room))

    return subprocess.run([program], stdin=open(script, "rb"), capture_output=True, env=ALONE, preexec_fn=limited)


def is_well(ran, replies):
    if ran.returncode == 0:
        return ran.stdout == replies and not ran.stderr
    return ran.returncode == 6 and replies.startswith(ran.stdout) and ran.stderr == LINE


def started(program, script):
    """The least room, to a page, in which the program itself is loaded."""
    low, high = 0, 2**30
    while high - low > PAGE:
        middle = (low + high) // 2 // PAGE * PAGE
        if run(program, script, middle).returncode in (0, 6):
            high = middle
        else:
            low = middle
    return high


def main():
    parser = argparse.ArgumentParser(description=__doc__, formatter_class=argparse.RawDescriptionHelpFormatter)
    parser.add_argument("program")
    program, passed, failed = parser.parse_args().program, 0, 0
    for row in ROWS:
        script, replies = TOP / f"rows/{row}.cga", (TOP / f"rows/{row}.out").read_bytes()
        room, refused = started(program, script), 0
        while True:
            ran = run(program, script, room)
            if not is_well(ran, replies):
                failed += 1
                print(f"{row} in {room} bytes: status {ran.returncode}")
            if ran.returncode == 0:
                break
            refused, room = refused + 1, room + PAGE
        print(f"{row}: refused in {refused} ways")
        passed += refused
    print(f"{passed} passed, {failed} failed")
    sys.exit(1 if failed or not passed else 0)


if __name__ == "__main__":
    main()
