"""The words of the language are the same in the crates, the documents, the tools and the editors."""
import json
import re
import sys
import unittest
from pathlib import Path

TOP = Path(__file__).resolve().parent.parent.parent
sys.path.insert(0, str(TOP / "tools"))

from cga_city_lib.script import BLOCK_WORDS, COMMANDS, COMMANDS_2, RESERVED  # noqa: E402

PARTS = {"sx", "sy", "sz", "occ"}


def text(path):
    return (TOP / path).read_text(encoding="utf-8")


def in_crate(path):
    """The words that a file of a crate compares with."""
    return set(re.findall(r'b"([A-Za-z]+)"', text(path)))


def groups_of_vim():
    """The words of each group of the syntax file."""
    found = {}
    for kind, group, rest in re.findall(
        r"^syn (keyword|match) (\w+) (.*)$", text("editor/vim/syntax/cga_city.vim"), re.MULTILINE
    ):
        listed = re.search(r"\\\(([A-Za-z\\|+]+)\\\)", rest)
        words = (
            rest.split() if kind == "keyword" else listed.group(1).replace("\\s\\+", " ").split("\\|") if listed else []
        )
        found.setdefault(group, set()).update(words)
    return found


def groups_of_code():
    """The words of each scope of the TextMate grammar."""
    found = {}
    for pattern in json.loads(text("editor/vscode/syntaxes/cga_city.tmLanguage.json"))["patterns"]:
        lists = re.findall(r"\(([A-Za-z|]+)\)", pattern["match"])
        names = (
            [pattern["name"]]
            if "name" in pattern
            else [name["name"] for _, name in sorted(pattern["captures"].items())]
        )
        for name, words in zip(names, lists):
            found.setdefault(name.split(".cga_city")[0], set()).update(words.split("|"))
    return found


class Words(unittest.TestCase):
    def test_reserved_words(self):
        self.assertEqual(in_crate("crates/cga_syntax/src/keyword.rt"), set(RESERVED))
        documents = re.search(r"reserved[^`\n]*`((?:\w+ ){9,}\w+)`", text("docs/LANGUAGE.md"))
        self.assertEqual(documents.group(1).split(), RESERVED)

    def test_commands(self):
        orders = {"breadth", "depth"}
        heads = in_crate("crates/cga_script/src/words.rt") | in_crate("crates/cga_script/src/command_form.rt")
        self.assertEqual(heads - orders, set(COMMANDS + COMMANDS_2))
        told = set(re.findall(r"`([a-z]+)[ `]", text("docs/LANGUAGE.md")))
        self.assertEqual(set(COMMANDS + COMMANDS_2) - told, set())

    def test_commands_that_have_a_row(self):
        """Each row of a table of commands tells of commands."""
        rows = re.findall(
            r"^\| (`[a-z].*?`) \|",
            text("docs/LANGUAGE.md").partition("## Commands")[2].partition("\n## ")[0],
            re.MULTILINE,
        )
        heads = {head for row in rows for head in re.findall(r"`([a-z]+)", row)}
        self.assertEqual(heads - set(COMMANDS + COMMANDS_2), {"end"})

    def test_vim(self):
        groups = groups_of_vim()
        self.assertEqual(groups["cgaItem"] | groups["cgaNothing"] | groups["cgaWord"], set(RESERVED))
        self.assertEqual(groups["cgaCommand"], set(COMMANDS + COMMANDS_2))
        self.assertEqual({word for words in groups["cgaBlock"] for word in words.split()} - {"order"}, set(BLOCK_WORDS))
        self.assertEqual(groups["cgaText"], in_crate("crates/cga_form/src/texts.rt"))
        self.assertEqual(groups["cgaPart"], PARTS)

    def test_vscode(self):
        groups = groups_of_code()
        reserved = (
            groups["support.function.item"] | groups["constant.language.nothing"] | groups["keyword.operator.word"]
        )
        self.assertEqual(reserved, set(RESERVED))
        self.assertEqual(groups["keyword.control.command"], set(COMMANDS + COMMANDS_2))
        self.assertEqual(groups["keyword.control.block"], set(BLOCK_WORDS))
        self.assertEqual(groups["string.quoted.double"], in_crate("crates/cga_form/src/texts.rt"))
        self.assertEqual(groups["variable.language.part"], PARTS)
        for file in ("package.json", "language-configuration.json"):
            json.loads(text(f"editor/vscode/{file}"))


if __name__ == "__main__":
    unittest.main()
