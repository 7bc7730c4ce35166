#!/usr/bin/env python3
"""trusted.py [--check] [--proved]: writes docs/TRUSTED.md, what a proof of the programs rests on besides.

What the sources say is read anew each time. What rt says of each program is asked for with --proved alone, which takes a
check of each; else the page keeps what it has of it. With --check nothing is written: the exit status is 0 where the page is
as the sources say, and with --proved as rt says too, else 1.
"""
import argparse
import re
import subprocess
import sys

from functions import TOP, all_functions, words_in_sources

PAGE = TOP / "docs" / "TRUSTED.md"
SAYS = "## What `rt` says of each program\n"
NOT_ASKED = "\nIt hasn't been asked yet: `.ci/trusted.py --proved` does, where the crates are proved.\n"
WORDS = {
    "logic": "each proof was admitted by the checker as one of the statement of its function, with no hole, and with nothing "
    "assumed but the contracts of C functions",
    "functions": None,
    "axioms": "on the contracts of how many C functions the proof rests; they stand below, and are taken as written",
    "target": "the system that the program is built for; nothing is proved of it",
    "cpu": "the processors that it is built for; likewise",
    "sum": "the sum of the program logic, the rules by which code is given its meaning; it is that of the kit",
    "native": "the checker computes with large numbers by GMP, and compares characters and texts in its own code: both are trusted",
    "logic-built": "the modules of the program logic were checked when the kit was made, and are taken from there",
    "libraries-built": "the crates that it stands on were checked when they were built, those of the kit with the kit, and what "
    "was then written is taken",
    "statements": "of those crates the statements alone are read, and their proofs not again",
    "incremental": "what an earlier check of the same files proved is taken from `out/`; a verdict of the gate is without this word",
    "batches": "several processes of the checker shared the functions, and one takes what the others wrote",
}
HEAD = """# What is trusted

This page is made by `.ci/trusted.py`. The gate compares what comes from the sources. What `rt` says of each program stands here as
it was last asked, with `--proved`. A proof says that the code meets its contracts. It rests on what stands here, and on the
definitions that the contracts cite, which [the statement](STATEMENT.md) has.

"""
COMPILERS = """
## Two compilers

The proof speaks of the source. A compiler makes the program of it, and nothing is proved of that step. So the gate has each
program built twice, by LLVM and by Rattle's own compiler. It runs both, and compares what each writes with the stored output.
The page that `rt doc` prints says why, under "What a verdict rests on besides the proofs": clang is known to compile some
correct code wrongly. The program that `./cga_city --prove` leaves is LLVM's.
"""


KITS = """
## Two kits

`rt version` prints the name of the toolchain's kit and the sum of its logic. The gate prints this line. The table
names the kits that the gate was run with. Their logic is the same. Of a kit of another logic this page says nothing.

| Kit | Sum of the logic |
|---|---|
| `rattle-kit-13b` | `dac8208d650f15bf` |
| `rattle-kit-13f` | `dac8208d650f15bf` |

What each kit keeps from one run to the next stands in [WORKING](WORKING.md#two-kits).
"""


class Unread(Exception):
    """Something was said that this page has no sentence for."""


# ---- what rt says


def programs():
    return sorted(path.parent.parent.name for path in TOP.glob("crates/*/src/main.rt"))


def log_of(program):
    """What a check of a program prints."""
    print(f"trusted.py: rt checks {program}", file=sys.stderr)
    done = subprocess.run(
        ["rt", "check", "--list-axioms"],
        cwd=TOP / "crates" / program,
        stdin=subprocess.DEVNULL,
        stdout=subprocess.PIPE,
        stderr=subprocess.STDOUT,
    )
    text = done.stdout.decode(errors="replace")
    if done.returncode != 0 or not verdict_in(text):
        raise Unread(f"rt check of {program} doesn't prove it; the last that it said: {text.strip().splitlines()[-1]}")
    return text


def verdict_in(log):
    """The last line of a check, and the report above it; crates that are checked first have lines of their own before them."""
    *before, last = re.split(r"^(?=logic=)", log, flags=re.MULTILINE)
    line = last.partition("\n")[0]
    return (line, before[-1]) if before and line.startswith("logic=proved ") else None


def words_of(log):
    """The words of the verdict, but the number of functions, which changes with the code."""
    pairs = dict(pair.split("=", 1) for pair in verdict_in(log)[0].split())
    unknown = pairs.keys() - WORDS.keys()
    if unknown:
        raise Unread(f"rt says {' '.join(sorted(unknown))} of a program, and .ci/trusted.py has no sentence for it")
    # what an earlier check has kept goes by the machine, not by the program
    return {word: said for word, said in pairs.items() if WORDS[word] and word not in ("incremental", "batches")}


def reached_in(log):
    """The C functions that the report marks, by the crate that declares them, as many as it counts."""
    reached = {}
    for match in re.finditer(
        r"^axioms (\S+): (\w+) reached of the \d+ declared\n((?:  .*\n)*)", verdict_in(log)[1], re.MULTILINE
    ):
        crate, number, rest = match.groups()
        names = [line.split()[0] for line in rest.splitlines() if re.search(r"\breached$", line)]
        if number != (str(len(names)) if names else "none"):
            raise Unread(f"rt counts {number} C functions of {crate} as reached, and marks {len(names)}")
        reached[crate] = names
    return reached


def said_section():
    logs = {program: log_of(program) for program in programs()}
    text = (
        SAYS
        + "\nThe last line of a check has these words, and `.ci/trusted.py --proved` refuses any other.\n\n| Word | Programs | Means |\n|---|---|---|\n"
    )
    said = {}
    for program, log in logs.items():
        for word, value in words_of(log).items():
            said.setdefault((word, value), []).append(program)
    for (word, value), names in said.items():
        text += f"| `{word}={value}` | {', '.join(names)} | {WORDS[word]} |\n"
    text += "\nC functions on whose contracts the proof rests, those that `rt check --list-axioms` marks `reached`:\n\n"
    text += "| Program | Declared by | Functions |\n|---|---|---|\n"
    for program, log in logs.items():
        for crate, names in reached_in(log).items():
            text += f"| {program} | {crate} | {', '.join(f'`{name}`' for name in names) or 'none'} |\n"
    return text


def kept_section():
    """What the page has of it."""
    page = PAGE.read_text(encoding="utf-8") if PAGE.exists() else ""
    found = re.search(re.escape(SAYS) + r"(?:(?!## ).*\n)*", page)
    return found.group().rstrip("\n") + "\n" if found else SAYS + NOT_ASKED


# ---- what the sources say


def escapes_section():
    """No code is taken out of the proof."""
    for word in ("unsafe", "extern"):
        files = words_in_sources(word)
        if files:
            raise Unread(f"the word {word} stands in {files[0]}, and this page says that it stands nowhere")
    return (
        "\n## What is taken out of the proof\n\nNothing: in no file of `crates/*/src` stands the word `unsafe`, and none "
        "declares a C function, by the word `extern`.\nThe file HANDLES allows no function that ends the process, waits, or starts "
        "threads.\n\nWhat standard input gave and standard output took is a record that no code holds (`Tape` of cga_outside). It says what "
        "the clauses of `StdSource` and\n`StdSink` tie it to, the buffer of each read and the piece of each write. That the "
        "system's calls move just these bytes is trusted.\n"
    )


def bare_section():
    bare = [function for function in all_functions() if not function.has_contract]
    own = [function for function in bare if not function.of_trait]
    text = (
        "\n## Functions without a contract\n\nOf these it is proved that they return and break off nowhere, and nothing else. "
        "Tests are left out.\n\n| Crate | File | Functions |\n|---|---|---|\n"
    )
    files = {}
    for function in own:
        files.setdefault((function.crate, function.file), []).append(f"`{function.name}`")
    text += "".join(f"| {crate} | {file} | {', '.join(names)} |\n" for (crate, file), names in files.items())
    text += (
        "\nThese are written for a trait, and have the contract that the trait states.\n\n| Crate | Trait and type | Functions |\n"
        "|---|---|---|\n"
    )
    traits = {}
    for function in bare:
        if function.of_trait:
            traits.setdefault((function.crate, function.of_trait), []).append(f"`{function.name}`")
    return text + "".join(f"| {crate} | `{trait}` | {', '.join(names)} |\n" for (crate, trait), names in traits.items())


def page(is_proved):
    said = said_section() if is_proved else kept_section()
    return HEAD + said + KITS + COMPILERS + escapes_section() + bare_section()


def main():
    parser = argparse.ArgumentParser(description=__doc__, formatter_class=argparse.RawDescriptionHelpFormatter)
    parser.add_argument("--check", action="store_true", help="compare, and write nothing")
    parser.add_argument("--proved", action="store_true", help="ask rt of each program")
    given = parser.parse_args()
    try:
        text = page(given.proved)
    except (Unread, OSError) as fault:
        sys.exit(f"trusted.py: {fault}")
    if not given.check:
        PAGE.write_text(text, encoding="utf-8")
    elif not PAGE.exists() or PAGE.read_text(encoding="utf-8") != text:
        sys.exit(
            "docs/TRUSTED.md isn't what is found: make it anew by .ci/trusted.py --proved, and read what has changed"
        )


if __name__ == "__main__":
    main()
