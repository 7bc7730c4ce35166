"""The preview's page in a browser without a window, over saves, with a stand-in for cga_live."""
import os
import re
import subprocess
import sys
import tempfile
import time
import unittest
from pathlib import Path
from urllib.request import Request, urlopen

TESTS = Path(__file__).resolve().parent
sys.path.insert(0, str(TESTS))

from browser import CHROMIUM, shared  # noqa: E402
from preview_sessions import sessions  # noqa: E402

LINES = """[...town.batches.values()].flatMap(({name, data, total}) => [...Array(total).keys()].map(slot => slot * FLOATS)
  .filter(at => data[at + SYMBOL] >= 0).map(at => [town.lots[data[at + LOT]], town.symbols[data[at + SYMBOL]], name,
  ...town.offset.map((from, k) => from + data[at + k]), ...data.subarray(at + SIZES, at + SIZES + 3)].join(' '))).sort()"""
SCRIPT = 'rules\nattr h = 3\n1: house -> S(1r, h, 1r) I("cube")\nend\nlot a 1 0 0 10 8 house\n'


@unittest.skipUnless(CHROMIUM, "Chromium isn't there")
class PreviewPage(unittest.TestCase):
    def setUp(self):
        folder = tempfile.TemporaryDirectory()
        self.addCleanup(folder.cleanup)
        self.script, self.saves = Path(folder.name) / "town.cga", 1
        self.script.write_text(SCRIPT, encoding="utf-8")
        self.browser = shared()
        self.addCleanup(self.end)
        self.browser.open(self.begin("0"))
        self.browser.wait("head.save === 1 && is_asked === false")

    def begin(self, port):
        """The address of the preview that is begun."""
        editor = f"cp '{{file}}' '{self.script.with_name('at')}{{line}}'"
        program = ["--program", TESTS / "live_stand_in", "--editor", editor]
        words = [TESTS.parent / "preview", *program, "--port", port, self.script]
        self.preview = subprocess.Popen(words, stdout=subprocess.PIPE, text=True)
        return re.match(r"(http://127\.0\.0\.1:\d+/) ", self.preview.stdout.readline()).group(1)

    def end(self):
        self.browser.open("about:blank")  # which asks the preview for nothing more
        self.preview.terminate()
        self.preview.wait()
        self.preview.stdout.close()

    def save(self, text):
        other = self.script.with_suffix(".new")
        other.write_text(text, encoding="utf-8")
        os.replace(other, self.script)
        self.saves += 1
        self.browser.wait(f"head.save === {self.saves}")

    def test_a_session(self):
        run = self.browser.run
        self.browser.click(240, 160)
        self.assertIn("rule 1 (line 3)", run("box_of('picked').textContent"))
        self.browser.drag(240, 160, 300, 180)
        seen = run("JSON.stringify(view)")
        # a typo leaves the town, greyed, and the view
        self.save(SCRIPT.replace('"cube"', '"cub"'))
        self.assertEqual(run("[canvas.className, town.counts[0], JSON.stringify(view)]"), ["stale", 1, seen])
        self.assertIn("town.cga:3:13: Unexpected", run("box_of('said').textContent"))
        self.save(SCRIPT)
        self.assertEqual(
            run("[canvas.className, town.counts[0], JSON.stringify(view), box_of('said').textContent]"),
            ["", 1, seen, ""],
        )
        # a slider changes the town, and another save sets it back
        run("(() => { const slider = box_of('slider_h'); slider.value = 5; slider.oninput(); })()")
        self.browser.wait(f"({LINES})[0] === 'a house cube 0 0 0 10 5 8'")
        self.save(SCRIPT + "lot b 1 20 0 10 8 house\n")
        self.assertEqual(
            run(f"[{LINES}, box_of('slider_h').value, JSON.stringify(view)]"),
            [["a house cube 0 0 0 10 3 8", "b house cube 20 0 0 10 3 8"], "3", seen],
        )
        self.assertIn("2 lots, 2 solids", run("box_of('sums').textContent"))

    def test_a_mesh_of_ones_own_that_is_saved_again(self):
        """The page draws the other mesh, and so does one that never knew the first."""
        mesh = self.script.with_name("own.obj")
        mesh.write_text("v 0 0 0\nv 2 0 0\nv 0 4 0\nf 1 2 3\n", encoding="utf-8")
        self.save(SCRIPT + "# mesh house own.obj\n")
        told = "[...town.batches.values()].filter(({count}) => count).map(({count, mesh}) => [count, mesh.corners])"
        self.assertEqual(self.browser.run(told), [[1, [[0, 0, 0], [1, 0, 0], [0, 1, 0]]]])
        mesh.write_text("v 0 0 0\nv 2 0 0\nv 1 4 0\nf 1 2 3\n", encoding="utf-8")
        for _ in range(2):
            self.browser.wait("head.save === 3 && is_asked === false")
            self.assertEqual(self.browser.run(told), [[1, [[0, 0, 0], [1, 0, 0], [0.5, 1, 0]]]])
            self.assertEqual(self.browser.run("[gl.getError(), box_of('said').textContent]"), [0, ""])
            self.browser.open(self.browser.run("location.href"))

    def test_a_slider_of_another_page_moves_here(self):
        address = self.browser.run("location.href")
        words = {"data": b'{"h": "4.5"}', "headers": {"Origin": address.rstrip("/")}}
        urlopen(Request(address + "set", **words)).close()
        self.browser.wait("box_of('slider_h').value === '4.5'")
        self.assertEqual(self.browser.run("box_of('slider_h').parentNode.className"), "turned")

    def test_a_value_that_is_told_before_its_own_answer_is_shown(self):
        """The answer to what the page sends is held up until the town with it is there."""
        self.browser.run(
            "(() => { const was = fetch; fetch = (name, words) => name !== 'set' ? was(name, words) : was(name, words)"
            ".then(async answer => { while (head.values.h !== '2') await new Promise(done => setTimeout(done, 10)); return answer; }); })()"
        )
        self.browser.run("turn('h', '2')")
        shown = "[box_of('slider_h').value, box_of('slider_h').parentNode.className]"
        self.assertEqual(self.browser.run(shown), ["2", "turned"])

    def test_a_click_opens_the_lot_and_the_editor(self):
        run = self.browser.run
        self.browser.click(240, 160)
        self.browser.wait("box_of('lot').querySelector('li') !== null")
        told = run("box_of('lot').textContent")
        for part in (
            "a /0",
            "house 10 x 0 x 8: rule 1",
            "line 3",
            "the tree of the lot",
            "/0 cube 10 x 3 x 8 at (0, 0, 0), drawn",
        ):
            self.assertIn(part, told)
        run("box_of('lot').querySelector('li button').click()")
        end = time.monotonic() + 60
        while not self.script.with_name("at3").exists() and time.monotonic() < end:
            time.sleep(0.02)
        self.assertTrue(self.script.with_name("at3").exists())

    def test_variants_stand_side_by_side(self):
        run = self.browser.run
        self.save(SCRIPT + "# floor house=3\n# variant tall h=9\n")
        run("[...document.querySelectorAll('.variants button')].find(one => one.textContent === 'compare').click()")
        self.browser.wait("box_of('bills').querySelectorAll('th button').length === 2", 300)
        rows = run(
            "[...box_of('bills').querySelectorAll('tr')].map(row => [...row.children].map(one => one.textContent))"
        )
        areas = [["", "script", "tall"], ["h", "3", "9"], ["floor area", "80", "240"], ["solids", "1", "1"]]
        self.assertEqual(rows, [*areas, ["house", "1 \u00b7 30", "1 \u00b7 90"]])
        run("[...box_of('bills').querySelectorAll('th button')][1].click()")
        self.browser.wait(f"({LINES})[0] === 'a house cube 0 0 0 10 9 8'")

    def test_how_much_was_worked_is_the_largest_text_while_it_lights_up(self):
        self.save(SCRIPT.replace("10 8", "10 7"))
        sizes = self.browser.run(
            "[...document.querySelectorAll('body *')].filter(one => one.offsetParent && one.innerText)"
            ".map(one => [parseFloat(getComputedStyle(one).fontSize), one.id])"
        )
        self.assertEqual(max(sizes)[1], "worked")
        self.assertRegex(self.browser.run("box_of('worked').textContent"), r"^\d+ of 2 shapes worked in [\d,]+ ms$")

    def test_a_file_that_is_gone_is_told(self):
        self.script.unlink()
        self.browser.wait("canvas.className === 'stale'")
        self.assertIn("the file is gone", self.browser.run("box_of('said').textContent"))
        self.save(SCRIPT + "# again\n")
        self.assertEqual(self.browser.run("[canvas.className, box_of('said').textContent]"), ["", ""])

    def test_on_a_telephone_nothing_is_beside_the_window(self):
        self.save(SCRIPT + "# camera a 1 1.6 30 0 -5 55\n# variant tall h=9\n")
        size = {"width": 360, "height": 640, "deviceScaleFactor": 2, "mobile": True}
        self.browser.ask("Emulation.setDeviceMetricsOverride", **size)
        self.addCleanup(
            self.browser.ask,
            "Emulation.setDeviceMetricsOverride",
            width=480,
            height=320,
            deviceScaleFactor=1,
            mobile=False,
        )
        self.browser.wait("innerWidth === 360")
        beside = self.browser.run(
            "[...document.querySelectorAll('body *')].filter(one => one.offsetParent).filter(one => {"
            " const {left, right} = one.getBoundingClientRect(); return left < -1 || right > 361; }).map(one => one.outerHTML.slice(0, 80))"
        )
        self.assertEqual(beside, [])

    def test_a_page_holds_what_a_fresh_page_holds(self):
        self.assertEqual(list(sessions(2)), [1, 2])

    def test_what_a_preview_that_is_begun_again_forgot_is_said(self):
        self.browser.run("(() => { const slider = box_of('slider_h'); slider.value = 5; slider.oninput(); })()")
        self.browser.wait("head.values.h === '5'")
        port = self.browser.run("location.port")
        self.preview.terminate()
        self.preview.wait()
        self.preview.stdout.close()
        self.begin(port)
        self.browser.wait("box_of('notice').textContent.includes('forgot the sliders: h 5')")
        self.browser.wait("box_of('slider_h') && box_of('slider_h').value === '3'")


if __name__ == "__main__":
    unittest.main()
