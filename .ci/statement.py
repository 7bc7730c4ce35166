#!/usr/bin/env python3
"""statement.py [--check]: writes docs/STATEMENT.md, the definitions from run_city to Derive on one page, in reading order, and
the numbers of lines and minutes in docs/GUIDED_HOUR.md, which walks over it.

The definitions are taken from the crates' specs/ by file and name, each with the comment above it, and the contract of
run_city from its source. A name of the contract, or of a definition on the page, is on the page, is a leaf, or is a word of
the standard library that the page explains; any other is refused. With --check nothing is written: the exit status is 0
where the page is as the files say, else 1.
"""
import argparse
import re
import subprocess
import sys
from pathlib import Path

from guided import lines_of, numbered
from specs import TOP, WORD, Missing, Specs, definition
from statement_text import CONTRACT, INTRODUCTION, LEAVES, SECTIONS, TOOLCHAIN

PAGE = TOP / "docs" / "STATEMENT.md"
HOUR = TOP / "docs" / "GUIDED_HOUR.md"
# the names that a file takes from elsewhere
IMPORT = re.compile(r"^(?:ghost )?(?:pub )?use Rattle\.(\w+)\.([\w.]+)\.\{([^}]*)\}", re.MULTILINE)
# a case of a type
CASE = re.compile(r"  (\w+) : ")


def source():
    """The file of run_city, and the line at which it begins."""
    for path in sorted((TOP / "crates/cga_top/src").glob("*.rt")):
        lines = path.read_text(encoding="utf-8").split("\n")
        at = next((at for at, line in enumerate(lines) if line.startswith(f"pub fn {CONTRACT}")), None)
        if at is not None:
            return path, lines, at
    raise Missing(f"cga_top has no {CONTRACT}")


def contract():
    """The contract of run_city, with what is said above it, and the file in which it stands."""
    path, lines, at = source()
    first = at
    while lines[first - 1].startswith("///"):
        first -= 1
    return path, lines[first : lines.index("{", at)]


def toolchain():
    """The folder of the toolchain's libraries."""
    try:
        said = subprocess.run(["rt", "doc"], capture_output=True, text=True, check=True).stdout
    except (OSError, subprocess.CalledProcessError):
        raise Missing("`rt doc` doesn't say where the toolchain is") from None
    return Path(said.split()[-1]).parent / "rattle"


def place(file):
    """The path of a file of the page, and what the page calls it."""
    if file.startswith(TOOLCHAIN):
        name = file[len(TOOLCHAIN) :]
        return toolchain() / name, f"`{name}` of the toolchain"
    return TOP / "crates" / file, f"`crates/{file}`"


def defined(file, names):
    """The lines of definitions of a file, with an empty line between two."""
    lines = place(file)[0].read_text(encoding="utf-8").split("\n")
    taken = []
    for name in names.split():
        try:
            taken += definition(lines, name) + [""]
        except Missing:
            raise Missing(f"{file} has no definition {name}") from None
    return taken[:-1]


def blocks(listed):
    """Of each file what the page calls it, the language of its block, and the lines of its definitions."""
    for file, names in listed:
        if file == CONTRACT:
            path, lines = contract()
            yield f"`{path.relative_to(TOP)}`", "rust", lines
        else:
            yield place(file)[1], "haskell", defined(file, names)


def shown():
    """The definitions on the page, as a crate and a page of it, and a name."""
    return {
        ((file.split("/")[0], Path(file).stem), name)
        for _, _, listed in SECTIONS
        for file, names in listed
        for name in names.split()
    }


def imports(text):
    """Of each definition that a file imports the crate and the page from which it comes, and its name there."""
    found = {}
    for crate, page, names in IMPORT.findall(text):
        if page.startswith("specs.declared."):
            continue
        for name in filter(None, (name.strip() for name in names.split(","))):
            there, _, here = name.partition(" as ")
            found[here or there] = ((crate, page.split(".")[-1]), there)
    return found


def cited(lines, text):
    """What some lines of a file cite of the names that it imports."""
    names = imports(text)
    words = WORD.findall("\n".join(line.partition(" -- ")[0] for line in lines if not line.strip().startswith("//")))
    return {names[word.split(".")[0]] for word in words if word.split(".")[0] in names}


def firsts():
    """What the contract cites."""
    return cited(contract()[1], source()[0].read_text(encoding="utf-8"))


def is_ours(file):
    return file[0].startswith("cga_")


def explained():
    """The words that the first table explains."""
    rows = [line for line in INTRODUCTION.split("\n") if line.startswith("| `")]
    return {word for row in rows for code in re.findall(r"`([^`]*)`", row) for word in WORD.findall(code)}


def definitions():
    """Of each file of specs/ on the page the lines of its definitions there."""
    for _, _, listed in SECTIONS:
        for file, names in listed:
            if file != CONTRACT:
                yield file, defined(file, names)


def on_page():
    """The names that the page defines, cases of types included, and those that it explains."""
    cases = {match[1] for _, lines in definitions() for match in map(CASE.match, lines) if match}
    return {name for _, name in shown()} | cases | explained()


def stranger(specs, reached):
    """A name that the page cites and that is nowhere: neither on the page, nor a leaf, nor explained; None where none is."""
    names = on_page()
    all_cited = set(firsts())
    for file, lines in definitions():
        if not file.startswith(TOOLCHAIN):
            all_cited |= cited(lines, place(file)[0].read_text(encoding="utf-8"))
    for file, name in sorted(all_cited):
        there = specs.found(file, name) if is_ours(file) else None
        if there not in reached and name not in names:
            return f"{'.'.join(file)}.{name}"
    return None


def counted(specs, reached):
    """How many leaves each crate has, and of how many lines."""
    counts = {}
    for file, name in reached - shown():
        number, lines = counts.get(file[0], (0, 0))
        counts[file[0]] = (number + 1, lines + len(specs.text(file, name)))
    return counts


def filled(text, **words):
    for name, word in words.items():
        text = text.replace("{" + name + "}", word)
    return text


def page():
    specs = Specs()
    reached = specs.reached([it for it in firsts() if is_ours(it[0])])
    lost = stranger(specs, reached)
    if lost:
        raise Missing(
            f"{lost} is cited on the page, and is neither on it, nor a leaf, nor explained in its first table"
        )
    counts = counted(specs, reached)
    number, lines = (sum(column) for column in zip(*counts.values()))
    text = filled(INTRODUCTION, number=f"{number}", lines=f"{lines:,}", crates=f"{len(counts)}")
    for at, (title, sentence, listed) in enumerate(SECTIONS, 1):
        text += f"\n## {at}. {title}\n\n{sentence}\n"
        for called, language, block in blocks(listed):
            text += f"\n{called}\n\n```{language}\n" + "\n".join(block) + "\n```\n"
    rows = [f"| {crate} | {some} | {few} |\n" for crate, (some, few) in sorted(counts.items())]
    return text + LEAVES + "".join(rows) + f"| all | {number} | {lines} |\n"


def pages():
    """Each page with its text as the files say."""
    hour = numbered(HOUR.read_text(encoding="utf-8"), [lines_of(blocks(listed)) for _, _, listed in SECTIONS])
    return {PAGE: page(), HOUR: hour}


def main():
    parser = argparse.ArgumentParser(description=__doc__, formatter_class=argparse.RawDescriptionHelpFormatter)
    parser.add_argument("--check", action="store_true", help="compare, and write nothing")
    checks = parser.parse_args().check
    try:
        texts = pages()
    except (Missing, OSError) as fault:
        sys.exit(f"statement.py: {fault}; the list of definitions in .ci/statement_text.py has to follow")
    for path, text in texts.items():
        if not checks:
            path.write_text(text, encoding="utf-8")
        elif not path.exists() or path.read_text(encoding="utf-8") != text:
            sys.exit(
                f"{path.relative_to(TOP)} isn't what the specs say: make it anew by .ci/statement.py, and read what has changed"
            )


if __name__ == "__main__":
    main()
