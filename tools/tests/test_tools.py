"""The tools, tried with stored replies and a stand-in for the program; run by `python3 -m unittest discover tools/tests`."""
import base64
import os
import re
import struct
import sys
import tempfile
import threading
import unittest
import zlib
from pathlib import Path
from unittest import mock

TESTS = Path(__file__).resolve().parent
TOP = TESTS.parent.parent
sys.path[:0] = [str(TESTS), str(TESTS.parent)]

from answers import State  # noqa: E402
from defined import by_definition  # noqa: E402
from in_process import called  # noqa: E402
from cga_city_lib.obj import Town  # noqa: E402
from cga_city_lib.replies import replies  # noqa: E402
from cga_city_lib.script import commands, is_open, lines_of, rule_of, text_of, tokens, without  # noqa: E402
from cga_city_lib.session import OPEN, Session  # noqa: E402

TOOLS = [
    path
    for path in sorted((TOP / "tools").iterdir())
    if path.is_file() and not path.name.startswith(".") and not path.suffix
]
STAND_IN = str(TESTS / "stand_in")


def call(tool, *words, stored=None):
    """A call in the folder of the tests, where the program of that name replies as is stored."""
    with mock.patch.dict(os.environ, {"STORED": str(stored)}):
        return called(tool, *words, folder=TESTS)


class Scripts(unittest.TestCase):
    def heads(self, text):
        lines = lines_of(text.encode("latin-1"))
        return [(command.first, command.last, " ".join(command.words[:2])) for command in commands(lines)]

    def test_blank_lines_are_no_commands(self):
        self.assertEqual(self.heads("\n \t# x\nprint # y\n\nstats"), [(2, 2, "print"), (4, 4, "stats")])

    def test_a_line_of_5000_blanks_is_long(self):
        self.assertEqual(self.heads(" " * 5000 + "\nprint\n"), [(0, 0, ""), (1, 1, "print")])

    def test_a_block_ends_at_a_lone_end(self):
        self.assertEqual(self.heads("rules\nend x\nlot\n\tend # x\nprint\n"), [(0, 3, "rules"), (4, 4, "print")])

    def test_version_2_has_more_blocks(self):
        text = "city\nend\nasset a\nend\njudge\nend\n"
        self.assertEqual(len(self.heads(text)), 6)
        self.assertEqual(
            self.heads("# x\nversion 2.0\n" + text),
            [(1, 1, "version 2.0"), (2, 3, "city"), (4, 5, "asset a"), (6, 7, "judge")],
        )
        self.assertEqual(len(self.heads("version 2\nasset T\nend\n")), 3)

    def test_a_block_may_be_left_open(self):
        lines = lines_of(b"rules\n1: a -> NIL\n")
        self.assertTrue(is_open(commands(lines)[-1], lines))

    def test_quiet_is_left_out_where_it_is_a_command(self):
        self.assertEqual(
            without(["quiet", "rules", "quiet", "end", "print", "print a"], "quiet", "print"),
            ["stats", "rules", "quiet", "end", "stats", "print a"],
        )

    def test_carriage_returns(self):
        lines = lines_of(b"a\r\n\r\nb\r\r\nc\r")
        self.assertEqual(lines, ["a", "", "b\r", "c\r"])
        self.assertEqual(lines_of(text_of(lines)), lines)

    def test_tokens_have_columns(self):
        self.assertEqual(
            tokens(' 2:a "b" 1r->x#y'), [(2, "2"), (3, ":"), (4, "a"), (6, '"b"'), (10, "1r"), (12, "->"), (14, "x")]
        )

    def test_only_blanks_and_tabs_are_passed_over(self):
        self.assertEqual(without(["quiet\r", "quiet\t", "quiet \x0b"], "quiet"), ["quiet\r", "stats", "quiet \x0b"])

    def test_rules_have_ids(self):
        self.assertEqual(
            [rule_of(line) for line in ("put 1 7: a -> b", "07: a(n) -> b", "attr a = 1")], [(7, "a"), (7, "a"), None]
        )


class Replies(unittest.TestCase):
    def test_each_reply_is_whole(self):
        parts = [
            ["# ok"],
            ["# cga_city obj", "o a", "g b", "v 0 0 0", "f 1 1 1"],
            ["# refused NoRule 1"],
            ["rules", "attr a = 1", "end"],
            ["version 2", "city", "end"],
            ["# faults 2", "# fault a / b Overflow", "# fault a /0 b Overflow"],
            ["# faults 0"],
            ["# bill 1", "# bill wall 1 0.0 0.0 0"],
            ["# trace 1", "# step a / b - - 1"],
            ["# stats lots 0"],
            ["# cga_city obj"],
        ]
        self.assertEqual(list(replies(line for part in parts for line in part)), parts)

    def test_each_command_of_stored_scripts_has_one(self):
        scripts = [script for folder in ("examples", "rows") for script in sorted((TOP / folder).glob("*.cga"))]
        self.assertTrue(scripts)
        for script in scripts:
            found = commands(lines_of(script.read_bytes()))
            stored = script.with_suffix(".out")
            is_read = stored.exists() and not script.with_suffix(".args").exists()
            if is_read and ["quiet"] not in [command.words for command in found]:
                with self.subTest(script.name):
                    self.assertEqual(
                        len(found), len(list(replies(stored.read_text(encoding="latin-1").split("\n")[:-1])))
                    )

    def test_a_reply_comes_before_the_next_is_read(self):
        self.assertEqual(next(replies(iter_then_fail(["# ok"]))), ["# ok"])


def iter_then_fail(lines):
    yield from lines
    raise AssertionError("read too far")


class Towns(unittest.TestCase):
    def test_the_last_town_counts(self):
        town = Town(
            "# cga_city obj\no a\ng b\nv 0 0 0\nf 1 1 1\n# ok\n# cga_city obj\no c\no d\ng e\nv 0 0 1\nv 1 0 0\nv 0 1 0\nf 1 2 3\n".split(
                "\n"
            )
        )
        self.assertEqual(list(town.lots), ["c", "d"])
        self.assertEqual([(solid.symbol, solid.faces) for solid in town.solids()], [("e", [[0, 1, 2]])])

    def test_a_vertex_that_is_not_there(self):
        with self.assertRaisesRegex(Exception, "vertex 2"):
            Town(["o a", "g b", "v 0 0 0", "f 1 2 1"])


class Sessions(unittest.TestCase):
    def setUp(self):
        self.session = Session(STAND_IN)
        self.addCleanup(self.session.close)

    def ask(self, *lines):
        _, found, answers, faults, town = self.session.ask(list(lines))
        self.assertEqual(len(found), len(answers))
        return answers, faults, list(town.lots)

    def test_a_script_that_grows_is_fed(self):
        self.ask("rules", "end", "lot a 1 0 0 1 1 wall")
        process = self.session.process
        self.assertEqual(
            self.ask("rules", "end", "lot a 1 0 0 1 1 wall", "", "lot flat 1 0 0 1 1 wall"),
            ([["# ok"]] * 3, ["# fault flat /0 wall FlatScope"], ["a", "flat"]),
        )
        self.assertIs(self.session.process, process)

    def test_a_script_that_changes_begins_anew(self):
        self.ask("lot a 1 0 0 1 1 wall")
        process = self.session.process
        self.assertEqual(self.ask("lot b 1 0 0 1 1 wall"), ([["# ok"]], [], ["b"]))
        self.assertIsNot(self.session.process, process)

    def test_an_open_block_waits(self):
        self.assertEqual(self.ask("lot a 1 0 0 1 1 wall", "rules", "x")[0], [["# ok"], OPEN])
        self.assertEqual(self.ask("lot a 1 0 0 1 1 wall", "rules", "x", "end")[0], [["# ok"], ["# ok"]])

    def test_quiet_and_nothing(self):
        self.assertEqual(self.ask("# nothing"), ([], [], []))
        self.assertEqual(
            self.ask("quiet", "lot a 1 0 0 0 1 wall", "print"),
            ([["# stats lots 0"], ["# refused BadLot a"], ["# stats lots 0"]], [], []),
        )

    def test_a_model_that_is_refused(self):
        self.assertEqual(
            self.ask("lot a 1 0 0 1 1 wall", "dress wall b"), ([["# ok"], ["# refused Unexpected at 1"]], [], ["a"])
        )

    def test_a_program_that_is_ended(self):
        with tempfile.NamedTemporaryFile("w", suffix=".sh", delete=False) as program:
            self.addCleanup(os.unlink, program.name)
            program.write("#!/bin/sh\nexec sleep 60\n")
        os.chmod(program.name, 0o700)
        session = Session(program.name)
        threading.Timer(0.3, session.stop).start()
        with self.assertRaisesRegex(Exception, "status -15"):
            session.ask(["print"])

    def test_a_program_that_ends(self):
        with self.assertRaisesRegex(Exception, "status 6"):
            self.ask("lot a 1 0 0 1 1 wall", "die")
        self.assertEqual(self.ask("lot a 1 0 0 1 1 wall")[2], ["a"])


class Lint(unittest.TestCase):
    def test_what_it_says(self):
        for script in sorted((TESTS / "lint").glob("*.cga")):
            with self.subTest(script.name):
                with by_definition():
                    status, said, _ = call("lint", f"lint/{script.name}")
                self.assertEqual(said, script.with_suffix(".said").read_text(encoding="utf-8"))
                self.assertEqual(status, 0 if ": 0 refused, 0 shapes came to nothing" in said else 1)

    def test_each_cause_has_a_sentence(self):
        from cga_city_lib.causes import CAUSES, CODES

        for file, known in (("cga_script/src/refusals.rt", CAUSES), ("cga_obj/src/faults.rt", CODES)):
            told = set(re.findall(r'b"([A-Z][A-Za-z]+)', (TOP / "crates" / file).read_text(encoding="utf-8")))
            self.assertTrue(told)
            self.assertEqual(told - set(known), set())

    def test_no_answer(self):
        with tempfile.NamedTemporaryFile(suffix=".cga") as script:
            script.write(b"die\n")
            script.flush()
            self.assertEqual(call("lint", "--program", STAND_IN, script.name)[0], 3)


class Shown(unittest.TestCase):
    def setUp(self):
        folder = tempfile.TemporaryDirectory()
        self.addCleanup(folder.cleanup)
        self.folder = Path(folder.name)

    def test_diff(self):
        for new, status, said in (("new.obj", 1, "diff.said"), ("old.obj", 0, "same.said")):
            self.assertEqual(call("diff", "old.obj", new), (status, (TESTS / said).read_text(encoding="utf-8"), ""))

    def test_view(self):
        target = self.folder / "page.html"
        self.assertEqual(call("view", "old.obj", target), (0, "", ""))
        text = target.read_text(encoding="utf-8")
        (packed,) = re.findall(r'"packed": "([^"]*)"', text)
        state = State()
        state.take(zlib.decompress(base64.b64decode(packed)))
        self.assertEqual(sorted({line.split()[1] for line in state.drawn()}), ["roof", "wall"])
        self.assertEqual((sum(state.drawn().values()), len(state.head["colours"]["wall"])), (5, 4))
        self.assertEqual(re.findall(r'(?:src|href)="(?!data:)|https?://', text), [])

    def test_picture(self):
        target = self.folder / "picture.png"
        self.assertEqual(
            call("picture", "old.obj", target, "street", "40x20", "--by", "python"),
            (0, "", f"picture: {target}: drawn by Python\n"),
        )
        data = target.read_bytes()
        self.assertEqual(struct.unpack(">II", data[16:24]), (40, 20))
        size = struct.unpack(">I", data[33:37])[0]
        self.assertEqual(len(zlib.decompress(data[41 : 41 + size])), 20 * (1 + 3 * 40))
        self.assertEqual(
            [call("picture", "old.obj", target, *words)[0] for words in (["x"], ["top", "bird"], ["40x20", "40x20"])],
            [2, 2, 2],
        )

    def test_nothing_drawn(self):
        for tool, name in (("view", "x.html"), ("picture", "x.png")):
            self.assertEqual(call(tool, "same.said", self.folder / name)[0], 1)

    def test_each_picture_can_be_made(self):
        for picture in [*TOP.glob("docs/pictures/*.png"), *TOP.glob("examples/*.png")]:
            self.assertTrue((TOP / "examples" / f"{picture.stem}.out").exists(), picture)


class Manners(unittest.TestCase):
    def test_each_tool_is_short_and_says_its_use(self):
        for tool in TOOLS:
            with self.subTest(tool.name):
                text = tool.read_text(encoding="utf-8")
                self.assertLessEqual(text.count("\n"), 160)
                self.assertRegex(text, f'"""[^\n]+\n\nusage: tools/{tool.name} ')
                self.assertTrue(os.access(tool, os.X_OK) and text.startswith("#!/usr/bin/env python3\n"))
                self.assertEqual(call(tool.name, "--help")[0], 0)
                self.assertEqual(call(tool.name, "--what")[0], 2)

    def test_each_module_is_in_the_readme(self):
        rows = re.findall(r"^\| `([^|]*)` \|", (TOP / "tools" / "README.md").read_text(encoding="utf-8"), re.MULTILINE)
        listed = [name for row in rows for name in row.split("`, `")]
        self.assertEqual(
            sorted(name for name in listed if name.isidentifier()),
            sorted(path.stem for path in (TOP / "tools" / "cga_city_lib").glob("*.py")),
        )

    def test_a_file_that_is_not_there(self):
        for tool, others, status in (("lint", [], 2), ("view", ["x"], 2), ("picture", ["x"], 2), ("diff", ["x"], 2)):
            self.assertEqual(
                call(tool, "nowhere", *others),
                (
                    status,
                    "",
                    f"{tool}: nowhere: no such file is there: look at its name, and from which folder the call goes out\n",
                ),
            )


if __name__ == "__main__":
    unittest.main()
