#!/usr/bin/env python3
"""commands.py [PAGE ..]: types each command of the documents as it stands, page by page, in a fresh copy of this folder.

A command stands in a block `sh`, or as code that begins with `tools/`, `./` or `make` in a table whose head has a cell
`Type`. A block `sh stays` goes on until it is stopped: it has to be there after some seconds. A block `sh apart` isn't typed
(a cluster, half an hour, a window of a desktop), and is counted. A command whose program isn't installed is skipped aloud.
Any other command has to end with status 0."""
import argparse
import os
import re
import shutil
import signal
import subprocess
import sys
import tempfile
import time
from pathlib import Path
from typing import Iterator, List, NamedTuple

TOP = Path(__file__).resolve().parent.parent
PROGRAMS = ("cga_main", "cga_live", "cga_hulls")
FENCE = re.compile(r"^```(.*)$")
SPAN = re.compile(r"`((?:tools/|\./|make )[^`]*)`")
COMMAND = re.compile(r"(\./|tools/|make\b|rt |blender |python3 |sh |mkdir |cp )")
STAYS = re.compile(r"(tools/preview|tools/watch|blender (?!.*--background)|python3 -m http\.server)")
APART = {
    "./check": "the gate itself",
    "./check --quick": "a part of the gate",
    "./check --bugs": "a part of the gate",
    "./check --speed": "minutes, and no reply of its own",
    "./cga_city --prove": "half an hour",
    "./cga_city --proved": "its status tells whether there is a proof",
}
SECONDS = 600


class Block(NamedTuple):
    """Commands that one shell is given, with the page's line where they begin."""

    line: int
    kind: str  # "typed", "stays" or "apart"
    text: str


def kind_of(info: str) -> str:
    return "apart" if info == "sh apart" else "stays" if info == "sh stays" else "typed"


def span_blocks(line: int, text: str) -> Iterator[Block]:
    """The commands in a table's row. A word in capitals stands for a file of the reader's, as in `tools/view TOWN`."""
    for command in SPAN.findall(text):
        if not re.search(r"\b[A-Z]{2,}\b", command):
            command = command.replace("\\|", "|")
            yield Block(line, "apart" if command in APART else "stays" if STAYS.match(command) else "typed", command)


def blocks(page: Path) -> Iterator[Block]:
    """The page's commands in their order."""
    info, begun, held, is_typed = None, 0, [], False
    for number, text in enumerate(page.read_text(encoding="utf-8").split("\n"), 1):
        fence = FENCE.match(text)
        if fence and info is None:
            info, begun, held = fence[1], number + 1, []
        elif fence:
            if info.split(" ")[0] == "sh":
                yield Block(begun, kind_of(info), "\n".join(held))
            elif not info and held and COMMAND.match(held[0]):
                yield Block(begun, "unmarked", held[0])
            info = None
        elif info is None:
            is_typed = text.startswith("|") and (is_typed or "| Type |" in text)
            yield from span_blocks(number, text) if is_typed else ()
        else:
            held.append(text)


def fresh_copy(folder: Path) -> None:
    """A copy of what git tracks or would track, with the programs that are built here."""
    told = subprocess.run(
        ["git", "ls-files", "-z", "-co", "--exclude-standard"], cwd=TOP, stdout=subprocess.PIPE, check=True
    )
    names = [name for name in told.stdout.decode().split("\0") if name]
    kept = [f"unproved/{name}" for name in PROGRAMS]
    built = [f"crates/{Path(name).name}/out/{name}{end}" for name in [*PROGRAMS, *kept] for end in ("", ".sources")]
    for name in names + built:
        if (TOP / name).is_file():
            (folder / name).parent.mkdir(parents=True, exist_ok=True)
            shutil.copy2(TOP / name, folder / name)


def not_here(text: str) -> str:
    """The first program of the commands that isn't installed; nothing where all are."""
    for word in re.findall(r"^(?:[A-Z]+=\S+ )*([a-z][\w-]*) ", text, re.MULTILINE):
        if not shutil.which(word) and word not in ("for", "if", "do", "done"):
            return word
    return ""


def ended(process: subprocess.Popen, seconds: float) -> bool:
    until = time.monotonic() + seconds
    while process.poll() is None and time.monotonic() < until:
        time.sleep(0.1)
    return process.poll() is not None


def stopped(process: subprocess.Popen) -> None:
    for number in (signal.SIGINT, signal.SIGKILL):
        if process.poll() is None:
            os.killpg(process.pid, number)
            ended(process, 10)


def fault_of(block: Block, folder: Path, environment: dict) -> str:
    """Why the commands don't do as the page says; nothing where they do."""
    with tempfile.TemporaryFile("w+", errors="replace") as said:
        process = subprocess.Popen(
            ["bash", "-e", "-o", "pipefail", "-c", block.text],
            cwd=folder,
            env=environment,
            stdin=subprocess.DEVNULL,
            stdout=said,
            stderr=subprocess.STDOUT,
            start_new_session=True,
        )
        is_done = ended(process, 4 if block.kind == "stays" else SECONDS)
        status = process.poll()
        stopped(process)
        said.seek(0)
        told = said.read()[-600:]
    if block.kind == "stays":
        return f"it ended with status {status}: {told}" if is_done else ""
    return "" if status == 0 else f"it ended with status {status}: {told}"


def typed(page: Path, counts: dict) -> Iterator[str]:
    """The faults of a page, whose commands are typed in one folder, in their order."""
    with tempfile.TemporaryDirectory() as work:
        folder, home = Path(work) / "cga_city", Path(work) / "home"
        folder.mkdir()
        home.mkdir()
        found = list(blocks(page))
        if any(block.kind in ("typed", "stays") for block in found):
            fresh_copy(folder)
        for block in found:
            place = f"{page.relative_to(TOP)}:{block.line}"
            lacking = not_here(block.text)
            if block.kind == "unmarked":
                yield f"{place}: commands stand in a block that isn't marked sh: {block.text}"
            elif block.kind == "apart":
                counts["apart"] += 1
            elif lacking:
                print(f"{place}: {lacking} isn't installed: not typed")
                counts["not here"] += 1
            else:
                counts["typed"] += 1
                begun = time.monotonic()
                fault = fault_of(block, folder, {**os.environ, "HOME": str(home)})
                print(f"{place}: {time.monotonic() - begun:.1f} s{' FAILED' if fault else ''}")
                if fault:
                    yield f"{place}: {block.text}: {fault}"


def pages() -> List[Path]:
    folders = ("examples", "examples/pipeline", "editor", "tools", "tools/blender")
    return [TOP / "README.md", *sorted(TOP.glob("docs/*.md")), *(TOP / folder / "README.md" for folder in folders)]


def main() -> int:
    parser = argparse.ArgumentParser(description=__doc__, formatter_class=argparse.RawDescriptionHelpFormatter)
    parser.add_argument("page", nargs="*", type=Path, help="the pages; all documents where none is named")
    wanted = [path.resolve() for path in parser.parse_args().page] or pages()
    counts = {"typed": 0, "apart": 0, "not here": 0}
    faults = [fault for page in wanted for fault in typed(page, counts)]
    print(*faults, sep="\n")
    print(", ".join(f"{number} {what}" for what, number in counts.items()) + f", {len(faults)} faults")
    return 1 if faults else 0


if __name__ == "__main__":
    sys.exit(main())
