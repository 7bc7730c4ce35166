#!/usr/bin/env python3
"""width.py: no statement of a lemma is wider than 120 columns, no import wider than 200, and the wide lines of answers and
proof terms don't grow in number. No file of the code is a symbolic link, which `rt ci` refuses at its end. Each fault has a
line, and then the status is 1. What is read is how a file is written and not what it says: the checker takes any width.
"""
import os
import pathlib
import re
import sys

TOP = pathlib.Path(__file__).resolve().parent.parent
STATEMENT, IMPORT, WIDEST = 120, 200, 200
HEAD = re.compile(r"^\s*(?:pub )?[^\s:(){}=]+ : ")
MORE = re.compile(r"^\s+[→×⊎] ")
BY_HAND = {"Answers.antt", "Invariants.antt", "Proof.antt"}
# lines of answers and proof terms that are wider than WIDEST: fewer are welcome, and then the number here falls
MOST_WIDE = 560


def faults(path, lines):
    statement = False
    for number, line in enumerate(lines, 1):
        begins = path.name not in BY_HAND and bool(HEAD.match(line)) and " = " not in line
        statement = begins or statement and bool(MORE.match(line))
        most = IMPORT if re.match(r"\s*(?:pub )?use ", line) else STATEMENT if statement else None
        if most and len(line) > most:
            yield f"{path.relative_to(TOP)}:{number}: {len(line)} columns, {most} at most"


def links(top):
    """The links in crates/, and those elsewhere that are named as code."""
    for folder, folders, files in os.walk(top):
        folders[:] = [name for name in folders if name not in (".git", "out")]
        for path in sorted(pathlib.Path(folder, name) for name in folders + files):
            place = path.relative_to(top)
            if path.is_symlink() and (place.parts[0] == "crates" or path.suffix in (".rt", ".antt")):
                yield f"{place} is a symbolic link, and has to be a file"


def main():
    found, wide = list(links(TOP)), 0
    for path in sorted(TOP.glob("crates/*/*/**/*.antt")):
        if path.relative_to(TOP).parts[2] in ("specs", "proofs"):
            lines = path.read_text().split("\n")
            found += faults(path, lines)
            wide += sum(len(line) > WIDEST for line in lines)
    if wide > MOST_WIDE:
        found.append(f"{wide} lines are wider than {WIDEST} columns, {MOST_WIDE} at most")
    print("\n".join([*found, f"{len(found)} faults of width, {wide} lines wider than {WIDEST}"]))
    sys.exit(1 if found else 0)


if __name__ == "__main__":
    main()
