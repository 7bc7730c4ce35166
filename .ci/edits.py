#!/usr/bin/env python3
"""edits.py: looks at the planted bugs before any proof. Each edit can be applied and changes something, no two of a
crate plant the same, and each crate that computes something has some. A crate of definitions and laws alone, or of
tests alone, needs none; nor does a program that is its root file alone, which hands on what crates below answer.
An edit in planted/ names the function that has to refuse it, by one line `fn: PATH`, and one in must-fail/ names none.
No attribute looks as if a crate without tests had some. Each fault has a line, and then the status is 1.
"""
import re
import sys
from pathlib import Path
from typing import Iterator, List, Set

from bugs import BY_FUNCTION, WHOLE, Bug, applied, bugs_of, crates

NAME = re.compile(r"[a-z0-9_]+\.edit")
# by this the toolchain takes a crate for one with tests, and then it wants some
SIGN = re.compile(r"#\s*\[[^]]*\btest\b")
TESTED = re.compile(r"#\[cfg\(test\)\]\n(?:pub )?mod (\w+);")
# a law's body is {}, or cites other laws
CITES = re.compile(r"^\{\n(?:    \w+(?:::<[\w, ]+>)?\(\);\n)+\}$", re.M)
# as rt fmt lays it out, the body of a function that does something begins in one of these two ways
BODY = re.compile(r"^\s*(?:(?:pub(?:\(\w+\))? )?(?:const )?fn .*\{|\{)$", re.M)
# each bug in must-fail/ is tried over a proof of its whole crate: more of them would hold the gate up
MOST_WHOLE = 130


def tested_alone(crate: Path) -> Set[Path]:
    """The files of modules that are there for tests alone."""
    names = [name for file in crate.glob("src/**/*.rt") for name in TESTED.findall(file.read_text())]
    return {file for name in names for file in [crate / f"src/{name}.rt", *crate.glob(f"src/{name}/**/*.rt")]}


def computes(crate: Path) -> bool:
    files = set(crate.glob("src/**/*.rt")) - tested_alone(crate)
    return files != {crate / "src/main.rt"} and any(BODY.search(CITES.sub("{}", file.read_text())) for file in files)


def fault_of_function(bug: Bug, folder: str) -> str:
    """Why the line that names the function isn't as its folder has it; nothing where it is."""
    if folder == WHOLE:
        return "its line 'fn:' belongs to planted/" if bug.function else ""
    if not bug.function:
        return "it has no line 'fn: PATH' with the function that has to refuse it, or several"
    name = bug.function.split("::")[-1]
    here = any(re.search(rf"\bfn {re.escape(name)}\b", file.read_text()) for file in bug.crate.glob("src/**/*.rt"))
    return "" if here else f"the crate has no function {name}"


def faults_of_bugs(crate: Path) -> Iterator[str]:
    planted = {}
    for folder in (WHOLE, BY_FUNCTION):
        for bug in bugs_of(crate, folder):
            texts, why = applied(bug.edit, crate)
            if not NAME.fullmatch(bug.edit.name):
                why = "its name is not letters, digits and _ and then .edit"
            why = why or fault_of_function(bug, folder)
            key = str(texts)
            if not why and key in planted:
                why = f"it plants what {planted[key]} does"
            planted[key] = bug.edit.name
            if why:
                yield f"BAD EDIT {crate.name}/{folder}/{bug.edit.name}: {why}"


def faults_of(crate: Path) -> Iterator[str]:
    yield from faults_of_bugs(crate)
    if not any(bugs_of(crate, folder) for folder in (WHOLE, BY_FUNCTION)) and computes(crate):
        yield f"{crate.name} computes something and has no planted bug"
    sources = [file.read_text() for file in crate.glob("src/**/*.rt")]
    if any(map(SIGN.search, sources)) and not any("#[test]" in source for source in sources):
        yield f"{crate.name} has no test, but an attribute with the word test"


def count(folder: str) -> int:
    return sum(len(bugs_of(crate, folder)) for crate in crates())


def main() -> int:
    faults: List[str] = [fault for crate in crates() for fault in faults_of(crate)]
    if count(WHOLE) > MOST_WHOLE:
        faults.append(f"{count(WHOLE)} bugs stand in must-fail/, {MOST_WHOLE} at most: planted/ costs seconds a bug")
    print("".join(f"{fault}\n" for fault in faults), end="")
    print(f"{count(WHOLE)} planted bugs by crate, {count(BY_FUNCTION)} by function, {len(faults)} faults")
    return 1 if faults else 0


if __name__ == "__main__":
    sys.exit(main())
