"""The preview, asked as a browser would, with stand-ins for the programs: one that prints, and one that tells changes."""
import http.client
import json
import os
import re
import signal
import socket
import struct
import subprocess
import sys
import tempfile
import time
import unittest
from collections import Counter
from pathlib import Path
from unittest import mock

TESTS = Path(__file__).resolve().parent
sys.path.insert(0, str(TESTS))

from answers import State  # noqa: E402
from in_process import begun, called  # noqa: E402
from cga_city_lib import watch  # noqa: E402
from cga_city_lib.preview_terminal import tell_on  # noqa: E402
from cga_city_lib.shown import Shown  # noqa: E402

RULES = 'rules\nattr h = 3\nPRIORITY 1:\n1: house -> S(1r, h, 1r) I("cube")\n2: shed -> I("gable")\nend\n'
PATIENCE = 120  # seconds for what takes none on a machine with nothing else to do
A, B = "lot a 1 0 0 10 8 house\n", "lot b 2 20 0 10 8 house\n"


class Page(State):
    """What a browser keeps of the answers; `last` is what the last one changed."""

    def __init__(self, port):
        super().__init__()
        self.port, self.stamp, self.last = port, "", []

    def get(self, path, host=None, body=None, origin=None):
        connection = http.client.HTTPConnection("127.0.0.1", self.port, timeout=PATIENCE)
        headers = {**({"Host": host} if host else {}), **({"Origin": origin} if origin else {})}
        connection.request("GET" if body is None else "POST", path, body=body, headers=headers)
        answer = connection.getresponse()
        told = answer.read()
        connection.close()
        return answer.status, told

    def follow(self):
        before = self.drawn()
        self.take(self.get(f"/state?{self.stamp}")[1])
        self.stamp, now = self.head["stamp"], self.drawn()
        self.last = [f"- {line}" for line in before - now] + [f"+ {line}" for line in now - before]

    def until(self, saves):
        """Follows up to that save; the lines that came on the way."""
        came = []
        while self.head.get("save", 0) < saves or self.head["is_busy"]:
            self.follow()
            came += self.last
        return came

    def set(self, values, origin=None):
        return self.get(
            "/set", body=json.dumps(values), origin=f"http://127.0.0.1:{self.port}" if origin is None else origin
        )[0]


class Preview(unittest.TestCase):
    program, words = "live_stand_in", ()

    def setUp(self):
        folder = tempfile.TemporaryDirectory()
        self.addCleanup(folder.cleanup)
        self.script = Path(folder.name) / "town.cga"
        self.faults = open(Path(folder.name) / "faults", "w+", encoding="utf-8")
        self.addCleanup(self.faults.close)

    def begin(self, text):
        self.save(text)
        read, write = os.pipe()
        with open(read, encoding="utf-8") as told:
            with open(write, "w") as out:
                self.preview = begun(
                    "preview",
                    *("--program", TESTS / self.program, "--port", "0", *self.words, self.script),
                    out=out,
                    err=self.faults,
                )
            self.addCleanup(self.end)
            self.page = Page(int(re.match(r"http://127\.0\.0\.1:(\d+)/ ", told.readline()).group(1)))
        self.page.until(1)

    def end(self):
        os.kill(self.preview.pid, signal.SIGINT)
        self.preview.join(PATIENCE)
        self.assertEqual(self.preview.exitcode, 130)
        self.faults.seek(0)
        self.assertEqual(self.faults.read(), "")

    def save(self, text):
        """As an editor does that writes beside the file and renames."""
        other = self.script.with_suffix(".new")
        other.write_text(text, encoding="utf-8")
        os.replace(other, self.script)

    def then(self, text):
        """Saves, and follows the page; what it was told, without the order."""
        self.save(text)
        return sorted(self.page.until(self.page.head["save"] + 1))


class Terminal(unittest.TestCase):
    """What is written where standard error is a terminal."""

    def test_all_that_the_page_says(self):
        shown, (ours, theirs) = Shown("town.cga"), os.openpty()
        terminal = open(theirs, "w", encoding="utf-8")
        tell_on(terminal, shown)
        with open(ours, encoding="utf-8") as read, terminal:
            for said, lines in (
                (
                    "town.cga:8:9: Unexpected\ntown.cga:9:9: \x1b[0m",
                    ["town.cga:8:9: Unexpected", "town.cga:9:9: <1B>[0m"],
                ),
                ("", ["town.cga: nothing is wrong any more"]),
            ):
                shown.put(said=said)
                self.assertEqual([read.readline().rstrip() for _ in lines], lines)

    def test_a_file_gets_nothing(self):
        with tempfile.TemporaryFile("w+") as file:
            tell_on(file, shown := Shown("town.cga"))
            shown.put(said="town.cga:8:9: Unexpected")
            self.assertEqual(file.tell(), 0)


class Live(Preview):
    def test_a_save_sends_what_changed_and_no_more(self):
        self.begin(RULES + A + B)
        self.assertEqual(
            sorted(self.page.drawn()), ["a house cube 0 0 0 +X+Y+Z 10 3 8", "b house cube 20 0 0 +X+Y+Z 10 3 8"]
        )
        self.assertEqual(
            self.then(RULES + A + B.replace("20", "30")),
            ["+ b house cube 30 0 0 +X+Y+Z 10 3 8", "- b house cube 20 0 0 +X+Y+Z 10 3 8"],
        )
        self.assertEqual(self.page.head["stats"]["worked"], 3)
        self.assertEqual(self.then(RULES + A), ["- b house cube 30 0 0 +X+Y+Z 10 3 8"])

    def test_an_edit_of_a_dressed_town_is_sent_as_an_edit(self):
        """A lot that moves is one instance that goes and one that comes, of the mesh of one's own; another asset is another mesh."""
        mesh = "asset box\nv 0 0 0\nv 2 0 0\nv 0 4 0\nf 1/1 2/2 -1/3\nend\ndress house box\nmodel\n"
        self.begin("version 2\n" + RULES + A + B + mesh)
        (name,) = self.page.head["meshes"]
        self.assertEqual(
            self.page.head["meshes"][name],
            {"corners": [[0, 0, 0], [1, 0, 0], [0, 1, 0]], "faces": [[0, 1, 2]], "tones": [[3, 0, 0, 0, -1]]},
        )
        self.assertEqual(
            self.then("version 2\n" + RULES + A + B.replace("20", "30") + mesh),
            [f"+ b house {name} 30 0 0 +X+Y+Z 10 3 8", f"- b house {name} 20 0 0 +X+Y+Z 10 3 8"],
        )
        self.assertEqual(self.page.head["stats"]["worked"], 3)
        came = self.then("version 2\n" + RULES + A + B.replace("20", "30") + mesh.replace("0 4 0", "1 4 0"))
        (other,) = self.page.head["meshes"]
        self.assertEqual(
            (other != name, came[:2]),
            (True, [f"+ a house {other} 0 0 0 +X+Y+Z 10 3 8", f"+ b house {other} 30 0 0 +X+Y+Z 10 3 8"]),
        )
        self.then("version 2\n" + RULES + A)
        self.assertEqual(list(self.page.drawn()), ["a house cube 0 0 0 +X+Y+Z 10 3 8"])

    def test_a_mesh_in_a_file_is_read_again_when_it_is_saved(self):
        path = self.script.with_name("own.obj")
        path.write_text("v 0 0 0\nv 2 0 0\nv 0 4 0\nf 1 2 3\n", encoding="utf-8")
        self.begin(RULES + A + "# mesh house own.obj\n")
        (name,) = self.page.head["meshes"]
        self.assertEqual(list(self.page.drawn()), [f"a house {name} 0 0 0 +X+Y+Z 10 3 8"])
        path.write_text("v 0 0 0\nv 2 0 0\nv 1 4 0\nf 1 2 3\n", encoding="utf-8")
        self.page.until(2)
        (line,) = self.page.drawn()
        self.assertEqual(line.split()[2], list(self.page.head["meshes"])[0])
        self.assertNotEqual(line.split()[2], name)
        path.unlink()
        self.page.until(3)
        self.assertEqual(list(self.page.drawn()), ["a house cube 0 0 0 +X+Y+Z 10 3 8"])
        self.assertEqual(
            self.page.head["said"],
            f"{self.script}:8: {path}: no such file is there: look at its name, and from which folder the call goes out",
        )

    def test_all_refused_lines_of_a_block_are_told(self):
        self.begin(RULES + A + B)
        self.then(RULES.replace("rules\n", 'rules\n8: x -> J("cube")\n9: y -> J("cube")\n') + A + B)
        places = re.findall(r"town.cga:(\d+:\d+): Unexpected", self.page.head["said"])
        self.assertEqual([place.split(":")[1] for place in places], ["9", "9"], self.page.head["said"])

    def test_a_typo_leaves_the_town(self):
        self.begin(RULES + A + B)
        wrong = RULES.replace('h, 1r) I("cube")', 'h, 1r) I("cub")')
        self.assertEqual(self.then(wrong + A + B), [])
        self.assertTrue(self.page.head["is_stale"])
        self.assertRegex(self.page.head["said"], r"town.cga:4:13: Unexpected: .*\n    1: house .*\n +\^\n.*1 refused")
        self.assertEqual(self.then(RULES + A + B), [])
        self.assertEqual((self.page.head["is_stale"], self.page.head["said"]), (False, ""))

    def test_a_block_that_is_left_open_leaves_the_town(self):
        self.begin(RULES + A)
        self.assertEqual(self.then(RULES.replace("end\n", "") + A), [])
        self.assertIn("OpenBlock", self.page.head["said"])

    def test_a_slider_and_a_save_after_it(self):
        self.begin(RULES + A)
        self.assertEqual(self.page.head["attributes"], {"h": "3"})
        self.assertEqual(self.page.set({"h": "4.5"}), 200)
        self.page.follow()
        while not self.page.last:
            self.page.follow()
        self.assertEqual(self.page.last, ["- a house cube 0 0 0 +X+Y+Z 10 3 8", "+ a house cube 0 0 0 +X+Y+Z 10 4.5 8"])
        self.assertEqual(
            self.then(RULES + A + B),
            [
                "+ a house cube 0 0 0 +X+Y+Z 10 3 8",
                "+ b house cube 20 0 0 +X+Y+Z 10 3 8",
                "- a house cube 0 0 0 +X+Y+Z 10 4.5 8",
            ],
        )

    def test_a_slider_of_one_page_is_told_to_the_other(self):
        self.begin(RULES + A)
        other = Page(self.page.port)
        other.until(1)
        self.assertEqual(self.page.set({"h": "4.5"}), 200)
        while not other.head["values"]:
            other.follow()
        self.assertEqual((other.head["values"], other.head["attributes"]), ({"h": "4.5"}, {"h": "3"}))
        self.then(RULES + B)
        self.assertEqual(self.page.head["values"], {})

    def test_a_save_is_one_step(self):
        """Of twelve lots six go and six others come: each town that a page is told is one that the file said."""
        before, after = ([f"lot {name}{at} 1 {20 * at} 0 10 8 house\n" for at in range(6)] for name in "ab")
        stays = [f"lot c{at} 1 {20 * at} 30 10 8 house\n" for at in range(6)]
        self.begin(RULES + "".join(before + stays))
        self.save(RULES + "".join(stays + after))
        towns = set()
        while self.page.head["save"] < 2:
            self.page.follow()
            towns.add(frozenset(line[0] for line in self.page.drawn()))
        self.assertEqual(towns, {frozenset("bc")})

    def test_a_file_that_is_gone_or_empty_is_told(self):
        self.begin(RULES + A)
        self.script.unlink()
        while not self.page.head["said"]:
            self.page.follow()
        self.assertIn("town.cga: the file is gone; the town is that of its last save", self.page.head["said"])
        self.assertTrue(self.page.head["is_stale"])
        self.then(RULES + A)
        self.assertEqual((self.page.head["said"], self.page.head["is_stale"]), ("", False))
        self.assertEqual(self.then(""), ["- a house cube 0 0 0 +X+Y+Z 10 3 8"])
        self.assertIn("town.cga: the file is empty, so there is no town", self.page.head["said"])

    def test_a_view_is_kept_in_the_script(self):
        self.begin(RULES + A)
        post = lambda words: self.page.get(
            "/keep", body=json.dumps(words), origin=f"http://127.0.0.1:{self.page.port}"
        )  # noqa: E731
        self.assertEqual(post({"camera": "street", "words": "1 1.6 30 0 -5 55"})[0], 200)
        self.page.until(2)
        self.assertEqual(self.script.read_text(encoding="utf-8"), RULES + A + "# camera street 1 1.6 30 0 -5 55\n")
        self.assertEqual(self.page.head["cameras"], {"street": "1 1.6 30 0 -5 55"})
        status, said = post({"camera": "a b", "words": "1 1.6 30 0 -5 55"})
        self.assertEqual((status, said[:31]), (409, b"a b: a name has letters, digits"))

    def test_a_value_is_written_into_the_script(self):
        self.begin(RULES + A + "# slider h 2..5 step 0.5\n")
        self.assertEqual(self.page.head["panel"]["shapes"]["h"], {"low": "2", "high": "5", "step": "0.5"})
        address = f"http://127.0.0.1:{self.page.port}"
        self.assertEqual(self.page.get("/write", body=json.dumps({"h": "4.5"}), origin=address)[0], 200)
        self.page.until(2)
        self.assertIn("attr h = 4.5\n", self.script.read_text(encoding="utf-8"))
        self.assertEqual(sorted(self.page.drawn()), ["a house cube 0 0 0 +X+Y+Z 10 4.5 8"])

    def ask(self, name, **words):
        """The status and what an address of the panel answers."""
        return self.page.get(f"/{name}", body=json.dumps(words), origin=f"http://127.0.0.1:{self.page.port}")

    def test_undo_takes_back_the_last_line_of_the_file(self):
        """Whatever was sent meanwhile: at first the file as one block, and then an edit of the first of its lots."""
        a, b = "a house cube {} 0 0 +X+Y+Z 10 3 8", "b house cube 20 0 0 +X+Y+Z 10 3 8"
        self.begin("version 2\n" + RULES + A + B)
        self.then("version 2\n" + RULES + A + B + "undo\n")
        self.assertEqual(list(self.page.drawn()), [a.format(0)])
        self.then("version 2\n" + RULES + A + B)
        self.then("version 2\n" + RULES + A.replace("1 0", "1 5") + B)
        self.assertEqual(sorted(self.page.drawn()), [a.format(5), b])
        self.then("version 2\n" + RULES + A.replace("1 0", "1 5") + B + "undo\n")
        self.assertEqual(list(self.page.drawn()), [a.format(5)])

    def test_variants_are_kept_and_compared(self):
        text = RULES + A + B + "# floor house=3\n# variant low h=3\n"
        self.begin(text)
        self.assertEqual(self.ask("keep", variant="high", words="h=9")[0], 200)
        self.page.until(2)
        self.assertEqual(self.script.read_text(encoding="utf-8"), text + "# variant high h=9\n")
        self.assertEqual(self.page.head["variants"], {"low": {"h": "3"}, "high": {"h": "9"}})
        self.assertEqual(self.ask("compare")[0], 200)
        while len(self.page.head["bills"]) < 3:
            self.page.follow()
        row = lambda high: {
            "rows": [["house", "2", str(20 * high), str(160 * high)]],
            "floors": 160 * high / 3,
        }  # noqa: E731
        self.assertEqual(self.page.head["bills"], {"": row(3), "low": row(3), "high": row(9)})
        self.then(text)
        self.assertEqual(self.page.head["bills"], {})
        self.then(RULES + A + "# variant wide h = 4\n")
        self.assertIn("town.cga:8: a variant is kept as `# variant NAME ATTRIBUTE=VALUE ..`", self.page.head["said"])

    def test_a_solid_tells_how_it_came(self):
        self.begin(RULES + A)
        status, told = self.ask("explain", lot="a", symbol="house", place="0 0 0 10 3 8")
        self.assertEqual(status, 200)
        (step,) = json.loads(told)["way"]
        self.assertEqual([step[name] for name in ("path", "symbol", "rule", "line")], ["/", "house", "rule 1", 4])
        status, said = self.ask("explain", lot="a", symbol="house", place="5 0 0 10 3 8")
        self.assertEqual((status, said), (409, b"a: the script as it is now draws no `house` there"))

    def test_the_editor_is_opened_at_a_line(self):
        told = self.script.with_name("told")
        self.words = ["--editor", f"cp '{{file}}' {told}.{{line}}"]
        self.begin(RULES + A)
        self.assertTrue(self.page.head["editor"])
        self.assertEqual(self.ask("open", line="4")[0], 200)
        end = time.monotonic() + PATIENCE
        while not self.script.with_name("told.4").exists() and time.monotonic() < end:
            time.sleep(0.01)
        self.assertTrue(self.script.with_name("told.4").exists())

    def test_a_page_that_comes_later_gets_all(self):
        self.begin(RULES + A)
        self.then(RULES + A + B)
        other = Page(self.page.port)
        other.until(2)
        self.assertEqual(other.drawn(), self.page.drawn())
        self.assertEqual(other.head["rules"], {"house": [[1, 4]], "shed": [[2, 5]]})

    def test_what_no_edit_says_begins_anew_and_tells_the_difference(self):
        self.begin(RULES + A + B)
        self.assertEqual(
            self.then(RULES + "lot c 3 40 0 10 8 shed\n" + A + B), ["+ c shed gable_along 40 0 0 +X+Y+Z 10 1 8"]
        )


class Printed(Preview):
    program = "stand_in"

    def test_it_follows_the_file(self):
        self.begin("lot a 1 0 0 1 1 wall\n")
        self.assertEqual(self.page.head["said"], "")
        self.assertEqual(list(self.page.drawn()), ["a wall mesh0 0 0 0 +X+Y+Z 1 1 1"])
        came = self.then("lot a 1 0 0 1 1 wall\nlot b 1 3 0 1 1 wall\nlot c 1 0 0 0 1 wall\nlot flat 1 7 0 1 1 wall\n")
        self.assertEqual(came, ["+ b wall mesh0 3 0 0 +X+Y+Z 1 1 1", "+ flat wall mesh0 7 0 0 +X+Y+Z 1 1 1"])
        self.assertRegex(
            self.page.head["said"], r"town.cga:3:5: BadLot: .*\n.*\n +\^\n.*: FlatScope: a shape of `wall`"
        )
        self.script.unlink()
        self.then("# nothing\n")
        self.assertEqual(self.page.drawn(), Counter())

    def test_it_answers_this_machine_alone(self):
        self.begin("lot a 1 0 0 1 1 wall\n")
        get = self.page.get
        self.assertEqual(get("/", "elsewhere.example")[0], 404)
        self.assertEqual(get("/", f"localhost:{self.page.port}")[0], 200)
        self.assertIn(b"follow()", get("/")[1])
        self.assertEqual(get("/../lint")[0], 404)
        self.assertEqual(self.page.set({"h": "1"}, "http://elsewhere.example"), 404)
        for wrong in ({"h": "1\nlot"}, {"h h": "1"}, ["h"]):
            self.assertEqual(self.page.set(wrong), 404)

    def test_a_page_that_goes_away_leaves_no_trace(self):
        self.begin("lot a 1 0 0 1 1 wall\n")
        gone = socket.create_connection(("127.0.0.1", self.page.port))
        gone.setsockopt(socket.SOL_SOCKET, socket.SO_LINGER, struct.pack("ii", 1, 0))
        gone.sendall(f"GET /state?{self.page.stamp} HTTP/1.1\r\nHost: localhost:{self.page.port}\r\n\r\n".encode())
        time.sleep(0.1)
        gone.close()
        self.then("lot a 30 0 0 1 1 wall\n")


class Waits(unittest.TestCase):
    def test_a_save_is_not_waited_for_long(self):
        """What is waited on purpose until a save is seen; the clock would tell of the machine's other work, too."""
        with tempfile.TemporaryDirectory() as folder, mock.patch.object(watch.time, "sleep") as sleep:
            script = Path(folder) / "town.cga"
            script.write_text("# a town\n")
            self.assertEqual(watch.Watch(script, None, None).read(), b"# a town\n")
        waited = watch.EACH + sum(call.args[0] for call in sleep.mock_calls)
        self.assertLess(waited, 0.1)


class Words(unittest.TestCase):
    def test_wrong_words_have_a_reason(self):
        for words, reason in (
            (["--port", "70000", "x"], "`70000` isn't a whole number from 0 to 65,535"),
            ([], "SCRIPT is missing"),
            (["--what", "x"], "`--what` is none of its words"),
            (["--editor", "vi", "x"], "--editor: it doesn't name the file: say a command with {file}"),
            (["--editor", "vi '{file}", "x"], "a quote in it isn't closed"),
        ):
            status, _, said = called("preview", *words)
            self.assertEqual(status, 2)
            self.assertIn(reason, said)

    def test_colours_that_are_not_there_are_told_at_once(self):
        words = [TESTS.parent / "preview", "--program", TESTS / "live_stand_in", "--port", "0", "town.cga"]
        done = subprocess.run(
            words, capture_output=True, text=True, timeout=PATIENCE, env={**os.environ, "CGA_COLOURS": "/nowhere.json"}
        )
        self.assertEqual(
            (done.returncode, done.stdout, done.stderr),
            (
                2,
                "",
                "preview: CGA_COLOURS names /nowhere.json, and no such file is there: name one that is, or take CGA_COLOURS away\n",
            ),
        )


del Preview

if __name__ == "__main__":
    unittest.main()
