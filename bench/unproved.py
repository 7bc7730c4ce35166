#!/usr/bin/env python3
"""Makes a program of this repository without any proof, in one to three minutes, so that a change can be measured before it is
proved. It takes the instructions of the proved program within some 6 in a hundred; compare it with others that were made by
this script. It shows nothing of the program's rightness.
"""
import argparse
import sys
import tempfile
from pathlib import Path

TOP = Path(__file__).resolve().parent.parent
sys.path.insert(0, str(TOP / "tools"))

from cga_city_lib.building import tell  # noqa: E402
from cga_city_lib.native import compile_by, kit_here  # noqa: E402


def main():
    parser = argparse.ArgumentParser(description=__doc__, formatter_class=argparse.RawDescriptionHelpFormatter)
    parser.add_argument("crate", help="a program: cga_main, cga_live or cga_hulls")
    parser.add_argument("program", type=Path, help="where it is put")
    words = parser.parse_args()
    folder = TOP / "crates" / words.crate
    if not (folder / "src/main.rt").exists():
        parser.error(f"{words.crate} is no program")
    with tempfile.TemporaryDirectory() as work, tempfile.TemporaryFile() as said:
        if not compile_by(kit_here(), folder, words.program.absolute(), Path(work), said, tell):
            said.seek(0)
            sys.exit(f"{said.read()[-2000:].decode(errors='replace')}\nnothing was compiled")
    print(f"{words.program}: made without a proof")


if __name__ == "__main__":
    main()
