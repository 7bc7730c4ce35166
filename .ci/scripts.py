#!/usr/bin/env python3
"""Copies each script that has stored replies into a folder.

A script is examples/NAME.cga or rows/NAME.cga with NAME.out beside it, and NAME.args where the program is given
words, one a line; or a block ```script of a document with a block behind it: ```replies, which has the replies,
```replies FILE, which names the file that has them, or ```counts, which says how many lines of each kind come:
lines 'NUMBER KIND', where a kind is a line's first word, or its first two where the first is '#'.
The folder gets NAME, the script, NAME.stdout, NAME.args, and NAME.counts. With --small those of rows/large are left out.
A script without replies is named, and then the status is 1.
"""
import argparse
import pathlib
import re
import shutil
import sys

TOP = pathlib.Path(__file__).resolve().parent.parent
FENCED = re.compile(r"^```(\S*)[ \t]*(\S*)[ \t]*\n(.*?)^```[ \t]*$", re.M | re.S)


def stored(folder, small):
    """Copies the scripts of examples/ and rows/, and returns those that have no replies."""
    lacking = []
    for script in sorted([*TOP.glob("examples/*.cga"), *TOP.glob("rows/**/*.cga")]):
        if small and script.parent.name == "large":
            continue
        name = "-".join(script.relative_to(TOP).with_suffix("").parts)
        replies, words = script.with_suffix(".out"), script.with_suffix(".args")
        if not replies.is_file():
            lacking.append(str(script.relative_to(TOP)))
            continue
        shutil.copyfile(script, folder / name)
        shutil.copyfile(replies, folder / f"{name}.stdout")
        if words.is_file():
            shutil.copyfile(words, folder / f"{name}.args")
    return lacking


def in_document(text):
    """The scripts of a document, each with the kind, the file and the text of the block behind it."""
    blocks = FENCED.findall(text)
    for at, (kind, _, script) in enumerate(blocks):
        if kind == "script":
            behind = blocks[at + 1] if at + 1 < len(blocks) else ("", "", "")
            yield script, *behind


def documented(folder):
    lacking = []
    for document in sorted([TOP / "README.md", *TOP.glob("docs/*.md")]):
        for number, (script, kind, file, replies) in enumerate(in_document(document.read_text()), 1):
            name = f"{document.stem}-{number:02}"
            if kind == "replies":
                replies = (TOP / file).read_text() if file else replies
                (folder / f"{name}.stdout").write_text(replies)
            elif kind == "counts":
                (folder / f"{name}.counts").write_text(replies)
            else:
                lacking.append(f"script {number} of {document.relative_to(TOP)}")
                continue
            (folder / name).write_text(script)
    return lacking


def main():
    parser = argparse.ArgumentParser(description=__doc__, formatter_class=argparse.RawDescriptionHelpFormatter)
    parser.add_argument("folder", type=pathlib.Path)
    parser.add_argument("--small", action="store_true", help="without rows/large")
    words = parser.parse_args()
    words.folder.mkdir(parents=True, exist_ok=True)
    lacking = [*stored(words.folder, words.small), *documented(words.folder)]
    for name in lacking:
        print(f"no replies are stored: {name}")
    sys.exit(1 if lacking else 0)


if __name__ == "__main__":
    main()
