"""What the language server tells an editor."""
import sys
import tempfile
import unittest
from pathlib import Path

TESTS = Path(__file__).resolve().parent
TOP = TESTS.parent.parent
sys.path[:0] = [str(TESTS), str(TESTS.parent)]

from cga_city_lib.call import Refused  # noqa: E402
from cga_city_lib.language import words  # noqa: E402
from cga_city_lib.language.completion import completions  # noqa: E402
from cga_city_lib.language.edits import formatted, places, renamed, renumbered  # noqa: E402
from cga_city_lib.language.fates import fates, marked  # noqa: E402
from cga_city_lib.language.findings import Runs, findings  # noqa: E402
from cga_city_lib.language.hover import hover  # noqa: E402
from cga_city_lib.language.text import Document  # noqa: E402
from cga_city_lib.script import BLOCK_WORDS, COMMANDS, COMMANDS_2, RESERVED  # noqa: E402
from lsp_client import Client  # noqa: E402

DEFINE = str(TOP / "tools" / "define")
TEXT = """version 2
rules
attr storey = 3
1: house(n) : n > 1 -> [ S(1r, storey, 1r) level ] T(0, storey, 0) house(n - 1)
2: house(n) -> S(1r, storey, 1r) level
3: level -> Comp("face", "front") { wall } Comp("face", "back") { NIL }
4: wall : Scope.sx > 9 -> I("quad")
5: wall -> I("cube")  # flat: nothing comes
6: tall -> house(3)
end
lot a 1 0 0 10 8 tall
lot b 2 20 0 6 8 tall
attr storey = 4
"""
LINES = TEXT.split("\n")
URI = "file:///town.cga"


def place(text: str, word: str, line: int = 0) -> tuple:
    """The document, and the line and byte of the first such word from a line on."""
    lines = text.split("\n")
    at = next(at for at in range(line, len(lines)) if word in lines[at])
    return Document(URI, text), at, lines[at].index(word) + 1


def labels(text: str, before: str) -> list:
    """What is offered behind a piece of a line."""
    document, at, byte = place(text, before)
    return [entry["label"] for entry in completions(document, at, byte + len(before))]


class Words(unittest.TestCase):
    def test_each_word_has_a_sentence(self) -> None:
        self.assertEqual(set(words.ITEMS) | set(words.VALUES), set(RESERVED))
        self.assertEqual(set(words.COMMANDS), {*COMMANDS, *COMMANDS_2, *BLOCK_WORDS} - {"breadth", "depth"})

    def test_completion(self) -> None:
        for before, wanted, other in (
            ("-> [ ", ["Repeat", "house", "wall"], ["storey", "n"]),
            ("1: house(n) : ", ["n", "storey", "not"], ["wall"]),
            ("T(0, ", ["n", "storey", "Scope"], ["wall", "Subdiv"]),
            ("Scope.", ["sx", "sy", "sz", "occ"], ["storey"]),
            ('I("', ["cube", "quad", "shed", "gable", "hip"], ["front"]),
            ('Comp("face", "', ["front", "top"], ["faces"]),
            ("attr ", ["storey"], ["house"]),
            ("lot a 1 0 0 10 8 ", ["tall"], ["storey"]),
        ):
            with self.subTest(before):
                found = labels(TEXT, before)
                self.assertEqual((set(wanted) - set(found), set(other) & set(found)), (set(), set()))

    def test_the_first_word_of_a_line(self) -> None:
        document = Document(URI, TEXT + "\n")
        self.assertIn("unlot", [entry["label"] for entry in completions(document, len(LINES), 1)])
        inside = Document(URI, TEXT.replace("end\n", "\nend\n"))
        found = [entry["label"] for entry in completions(inside, LINES.index("end"), 1)]
        self.assertEqual(found, ["attr", "PRIORITY", "end", "10: "])


class Names(unittest.TestCase):
    def test_definition_and_references(self) -> None:
        for word, line, many, said in (
            ("wall", 5, 3, [6, 7]),
            ("storey", 3, 5, [2]),
            ("level", 3, 3, [5]),
            ("tall", 10, 3, [8]),
        ):
            with self.subTest(word):
                found = places(*place(TEXT, word, line))
                self.assertEqual((len(found), [one.line for one in found if one.says]), (many, said))

    def test_a_parameter_stands_in_its_rule_alone(self) -> None:
        document, at, byte = place(TEXT, "n - 1")
        self.assertEqual([one.line for one in places(document, at, byte)], [3, 3, 3])

    def test_rename(self) -> None:
        document, at, byte = place(TEXT, "wall")
        edits = renamed(document, at, byte, "facade")["changes"][URI]
        self.assertEqual([edit["range"]["start"]["line"] for edit in edits], [5, 6, 7])
        for name, why in (("level", "stands there already"), ("S", "is reserved"), ("9a", "is no name")):
            with self.assertRaisesRegex(Refused, why):
                renamed(document, at, byte, name)

    def test_columns_are_those_of_the_editor(self) -> None:
        """Behind letters beyond ASCII the bytes of a line are more than the editor's columns."""
        document = Document(URI, "# \u00e9\U0001f600x\n")
        self.assertEqual([document.unit(0, byte) for byte in (3, 5, 9)], [2, 3, 5])
        self.assertEqual([document.byte(0, unit) for unit in (2, 3, 5)], [3, 5, 9])

    def test_layout_and_numbers(self) -> None:
        document = Document(URI, "rules\n1:a->NIL\nend\n")
        self.assertEqual(formatted(document)[0]["newText"], "rules\n1: a -> NIL\nend\n")
        self.assertEqual(renumbered(document)[0]["newText"], "rules\n10: a -> NIL\nend\n")
        self.assertEqual(formatted(Document(URI, TEXT)), [])


class Towns(unittest.TestCase):
    def test_the_fate_of_a_rule(self) -> None:
        """Each lot has three levels with a wall each; those of the lot of 6 take rule 5, and come to nothing."""
        known = fates(Document(URI, TEXT).lines, Runs(DEFINE).answer)
        self.assertEqual((known.shapes["wall"], known.shapes["house"]), (6, 6))
        self.assertEqual([known.taken[number] for number in (1, 2, 4, 5)], [4, 2, 3, 0])
        self.assertEqual(dict(known.faults), {("wall", "FlatScope"): 3})
        told = hover(*place(TEXT, "wall", 6), known)["contents"]["value"]
        self.assertIn('- `4: wall : Scope.sx > 9 -> I("quad")`: taken by 3 of 6 shapes', told)
        self.assertIn("3 came to nothing: FlatScope", told)
        self.assertIn("2 rules read it", hover(*place(TEXT, "storey", 3), known)["contents"]["value"])

    def test_numbers_that_are_taken(self) -> None:
        """tools/parcels numbers its rules from 999999 downwards."""
        text = TEXT.replace("6: tall", "999999: tall")
        known = fates(Document(URI, text).lines, Runs(DEFINE).answer)
        self.assertEqual((known.shapes["tall"], known.taken[2]), (2, 2))

    def test_a_mark_in_each_body(self) -> None:
        mark = "[ T(10000000, 0, 0) S(0, 0, 0) m ]"
        self.assertEqual(
            marked("4: a : b > 1 -> c : 0.5 -> NIL : 0.5  # x", "m").split(),
            f"4: a : b > 1 -> c {mark} : 0.5 -> {mark} : 0.5".split(),
        )

    def test_findings(self) -> None:
        text = TEXT.replace('I("quad")', 'I("quat")').replace("6: tall", "6 tall")
        found = findings(Document(URI, text), Runs(DEFINE))
        first = found[0]
        self.assertEqual(
            (first["severity"], first["code"], first["range"]["start"]), (1, "Unexpected", {"line": 6, "character": 28})
        )
        faults = findings(Document(URI, TEXT), Runs(DEFINE))
        self.assertEqual([(one["severity"], one["code"]) for one in faults], [(2, "FlatScope")])
        self.assertIn("what helps: depth before it", faults[0]["message"])

    def test_all_errors_of_a_block(self) -> None:
        """Two slips, in a script that is quiet; by a program that may be asked again."""
        text = 'quiet\nrules\n1: a -> b\n2: b -> I("hop")\n3: c -> S(1r, h, 1r) b\nend\nlot x 1 0 0 1 1 a\n'
        with tempfile.TemporaryDirectory() as folder:
            program = Path(folder) / "program"
            program.symlink_to(DEFINE)
            found = findings(Document(URI, text), Runs(str(program)))
        self.assertEqual([one["range"]["start"]["line"] for one in found if one["severity"] == 1], [3, 4])


class Talk(unittest.TestCase):
    def test_a_session(self) -> None:
        client = Client("--program", DEFINE)
        self.assertIn("hoverProvider", client.ask("initialize")["capabilities"])
        client.open(URI, TEXT)
        self.assertEqual([one["code"] for one in client.found()], ["FlatScope"])
        client.notify(
            "textDocument/didChange", textDocument={"uri": URI}, contentChanges=[{"text": TEXT.replace("cube", "quad")}]
        )
        self.assertEqual(client.found(), [])
        about = {"textDocument": {"uri": URI}, "position": {"line": 5, "character": LINES[5].index("wall")}}
        self.assertEqual(len(client.ask("textDocument/definition", **about)), 2)
        self.assertEqual(client.ask("textDocument/rename", newName="S", **about), "`S` is reserved")
        self.assertEqual(len(client.ask("textDocument/documentSymbol", textDocument={"uri": URI})), 9)
        self.assertIn("isn't answered", client.ask("textDocument/foldingRange"))
        self.assertIn("isn't open", client.ask("textDocument/formatting", textDocument={"uri": "file:///x"}))
        self.assertEqual(client.end(), 0)
        client.process.stdout.close()

    def test_what_is_no_editor(self) -> None:
        client = Client()
        out, said = client.process.communicate(b"rules\n1: a -> NIL\nend\n", timeout=20)
        self.assertEqual((client.process.returncode, out, said.count(b"\n")), (1, b"", 1))
        self.assertIn(b"an editor starts this tool", said)


if __name__ == "__main__":
    unittest.main()
