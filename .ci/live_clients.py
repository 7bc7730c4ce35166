#!/usr/bin/env python3
"""Runs the clients of docs/LIVE.md: each block of Python or JavaScript with what stands behind it as ```said. Where Node isn't
installed, says so and passes over its client.
"""
import argparse
import pathlib
import re
import shutil
import subprocess
import sys
import tempfile

PAGE = pathlib.Path(__file__).resolve().parent.parent / "docs" / "LIVE.md"
CLIENT = re.compile(r"^```(python|javascript)\n(.*?)^```\n.*?^```said\n(.*?)^```\n", re.M | re.S)
RUNS = {"python": ("python3", ".py"), "javascript": ("node", ".js")}


def says(kind, code, program):
    """What a client says, or None where what runs it isn't there."""
    command, ending = RUNS[kind]
    if not shutil.which(command):
        return None
    with tempfile.TemporaryDirectory() as folder:
        client = pathlib.Path(folder) / f"client{ending}"
        client.write_text(code)
        done = subprocess.run([command, client, program], stdout=subprocess.PIPE, timeout=600)
    return done.stdout.decode()


def main():
    parser = argparse.ArgumentParser(description=__doc__)
    parser.add_argument("program", help="cga_live")
    program = pathlib.Path(parser.parse_args().program).resolve()
    found = CLIENT.findall(PAGE.read_text())
    failed = {"python", "javascript"} - {kind for kind, _, _ in found}
    for kind in failed:
        print(f"docs/LIVE.md has no client in {kind}")
    for kind, code, wanted in found:
        said = says(kind, code, program)
        if said is None:
            print(f"PASSED OVER: {RUNS[kind][0]} isn't installed, so the client in {kind} isn't run")
        elif said != wanted:
            failed.add(kind)
            print(f"the client in {kind} says:\n{said}")
    print(f"{len(found)} clients, {len(failed)} failed")
    return 1 if failed else 0


if __name__ == "__main__":
    sys.exit(main())
