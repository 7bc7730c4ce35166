#!/usr/bin/env python3
"""Over all stored scripts that have no words: the replies of cga_live, without what changed, are the stored ones byte by byte,
and no count of instances falls below 0.
"""
import argparse
import pathlib
import subprocess
import sys
import tempfile
from collections import Counter

from live_town import Town, Wrong

TOP = pathlib.Path(__file__).resolve().parent.parent


def kinds(lines):
    """How many lines of each kind there are, as the stored counts say it."""
    words = (line.split() for line in lines)
    found = Counter(" ".join(words[:2] if words[0] == "#" else words[:1]) for words in words if words)
    return sorted(f"{number} {kind}" for kind, number in found.items())


def fault(program, script):
    """Why a script's replies aren't the stored ones, or None."""
    with script.open("rb") as given:
        done = subprocess.run([program], stdin=given, stdout=subprocess.PIPE, timeout=600)
    if done.returncode != 0:
        return f"status {done.returncode}"
    lines = done.stdout.decode("latin-1").split("\n")
    try:
        told = list(Town().take(lines))
    except Wrong as wrong:
        return str(wrong)
    counts = script.with_name(script.name + ".counts")
    if counts.exists():
        same = kinds(told) == sorted(counts.read_text().splitlines())
    else:
        same = "\n".join(told).encode("latin-1") == script.with_name(script.name + ".stdout").read_bytes()
    return None if same else "other replies"


def main():
    parser = argparse.ArgumentParser(description=__doc__)
    parser.add_argument("program", help="cga_live")
    parser.add_argument("--small", action="store_true", help="without the large scripts")
    words = parser.parse_args()
    failed = passed = 0
    with tempfile.TemporaryDirectory() as folder:
        subprocess.run([TOP / ".ci/scripts.py", folder, *["--small"] * words.small], check=True)
        names = [path.name for path in pathlib.Path(folder).iterdir()]
        for name in sorted(names):
            if name.endswith((".stdout", ".args", ".counts")) or f"{name}.args" in names:
                continue
            why = fault(words.program, pathlib.Path(folder) / name)
            passed, failed = passed + (why is None), failed + (why is not None)
            if why:
                print(f"{name}: {why}")
    print(f"{passed} passed, {failed} failed")
    return 1 if failed else 0


if __name__ == "__main__":
    sys.exit(main())
