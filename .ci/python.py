#!/usr/bin/env python3
"""python.py [--write]: the layout of all Python files here, by black, and what pyflakes finds in them.

Debian's `black` and `python3-pyflakes` do both; where one isn't installed, its check is skipped aloud. With --write the files
get black's layout."""
import argparse
import shutil
import subprocess
import sys
from pathlib import Path
from typing import List

TOP = Path(__file__).resolve().parent.parent


def is_python(path: Path) -> bool:
    if path.suffix:
        return path.suffix == ".py"
    with open(path, "rb") as file:
        return file.readline().startswith(b"#!/usr/bin/env python3") or path == TOP / "cga_city"


def python_files() -> List[str]:
    told = subprocess.run(
        ["git", "ls-files", "-z", "-co", "--exclude-standard"], cwd=TOP, stdout=subprocess.PIPE, check=True
    )
    paths = [TOP / name for name in told.stdout.decode().split("\0") if name and not name.startswith("crates/")]
    return sorted({str(path.relative_to(TOP)) for path in paths if path.is_file() and is_python(path)})


def passes(command: List[str], package: str) -> bool:
    """Whether the program finds nothing, or isn't installed."""
    if not shutil.which(command[0]):
        print(f"{command[0]} isn't installed (Debian: {package}): not looked at")
        return True
    return subprocess.run([*command, *python_files()], cwd=TOP).returncode == 0


def main() -> int:
    parser = argparse.ArgumentParser(description=__doc__, allow_abbrev=False)
    parser.add_argument("--write", action="store_true", help="give the files black's layout")
    check = [] if parser.parse_args().write else ["--check"]
    checks = [passes(["black", "--quiet", *check], "black"), passes(["pyflakes3"], "python3-pyflakes")]
    if not all(checks):
        print("python.py: .ci/python.py --write lays all files out by black; what pyflakes prints is mended by hand")
        return 1
    print(f"{len(python_files())} Python files: layout and names are in order")
    return 0


if __name__ == "__main__":
    sys.exit(main())
