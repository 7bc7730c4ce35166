"""What a page is given of a town, and the page in a browser without a window, where Chromium is there."""
import base64
import json
import re
import sys
import tempfile
import unittest
import zlib
from pathlib import Path

TESTS = Path(__file__).resolve().parent
TOP = TESTS.parent.parent
sys.path[:0] = [str(TESTS.parent), str(TESTS)]

from answers import State  # noqa: E402
from browser import CHROMIUM, shared  # noqa: E402
from cga_city_lib.drawn import Meshes  # noqa: E402
from cga_city_lib.obj import Town  # noqa: E402
from cga_city_lib.page import data_of, packed, page  # noqa: E402
from cga_city_lib.shown import Shown  # noqa: E402

if not CHROMIUM:
    print(
        "SKIPPED: the page isn't tried in a browser, since Chromium isn't there (apt-get install chromium)",
        file=sys.stderr,
    )
FACES = ["f 4 3 7 8", "f 3 2 6 7", "f 2 1 5 6", "f 1 4 8 5", "f 8 7 6 5", "f 1 2 3 4"]


def cubes(*places, symbol="wall", lot="a"):
    """An OBJ text of cubes, each by its corner and its sizes."""
    lines = [f"o {lot}"]
    for number, (x, y, z, w, h, d) in enumerate(places):
        base = [(x, z), (x + w, z), (x + w, z + d), (x, z + d)]
        lines += [f"g {symbol}", *(f"v {a:.6f} {b:.6f} {c:.6f}" for b in (y, y + h) for a, c in base)]
        lines += ["f " + " ".join(str(8 * number + int(at)) for at in face.split()[1:]) for face in FACES]
    return lines


class Data(unittest.TestCase):
    def test_a_pane_at_map_coordinates_keeps_its_thickness(self):
        (line,) = Meshes().lines(Town(cubes((2683141.123456, 0, 1247942, 1, 2, 0.06))))
        self.assertEqual(line, "a wall mesh0 2683141.123456 0 1247942 +X+Y+Z 1 2 0.06")

    def test_equal_forms_have_one_mesh(self):
        meshes = Meshes()
        lines = meshes.lines(Town(cubes((0, 0, 0, 1, 2, 3), (5, 0, 0, 7, 8, 9))))
        self.assertEqual([line.split()[2] for line in lines], ["mesh0", "mesh0"])
        self.assertEqual(list(meshes.told), ["mesh0"])

    def test_names_are_only_ever_data(self):
        lines = cubes((0, 0, 0, 1, 1, 1), symbol="<!-- <script>", lot='a b "$&')
        (line,) = Meshes().lines(Town(lines))
        self.assertEqual(
            line.split(),
            ["a%20b%20%22%24%26", "%3C%21--%20%3Cscript%3E", "mesh0", "0", "0", "0", "+X+Y+Z", "1", "1", "1"],
        )

    def test_a_change_of_all_is_told_as_a_change(self):
        """So that it lights up, however large it is; the page that was there before is told no town, but slots."""
        shown, lines = Shown("town"), [f"a wall cube {at} 0 0 +X+Y+Z 1 {{}} 1" for at in range(11_000)]
        shown.replace(line.format(1).encode() for line in lines)
        page = State()
        page.take(shown.after(""))
        stamp = page.head["stamp"]
        shown.replace(line.format(2).encode() for line in lines)
        page.take(shown.after(stamp))
        self.assertEqual(page.head["from"], stamp)
        self.assertEqual(set(page.drawn()), {line.format(2) for line in lines})

    def test_a_title_does_not_end_the_script(self):
        text = page(data_of(Town(cubes((0, 0, 0, 1, 1, 1))), "<!-- <script>"))
        (given,) = re.findall(r"^const given = (.*);$", text, re.MULTILINE)
        self.assertNotIn("<", given)
        state = State()
        state.take(zlib.decompress(base64.b64decode(json.loads(given)["packed"])))
        self.assertEqual(state.head["title"], "<!-- <script>")
        self.assertEqual(list(state.drawn()), ["a wall mesh0 0 0 0 +X+Y+Z 1 1 1"])


def contrast(one, other):
    """Of two colours, by WCAG."""

    def light(colour):
        parts = [part / 255 for part in colour]
        parts = [part / 12.92 if part <= 0.04045 else ((part + 0.055) / 1.055) ** 2.4 for part in parts]
        return 0.2126 * parts[0] + 0.7152 * parts[1] + 0.0722 * parts[2]

    low, high = sorted((light(one), light(other)))
    return (high + 0.05) / (low + 0.05)


@unittest.skipUnless(CHROMIUM, "Chromium isn't there")
class InBrowser(unittest.TestCase):
    """The page as it is drawn by the processor alone, in a window of 480 by 320."""

    @classmethod
    def setUpClass(cls):
        cls.browser = shared()
        folder = tempfile.TemporaryDirectory()
        cls.addClassCleanup(folder.cleanup)
        cls.file = Path(folder.name) / "page.html"

    def show(self, town, title="town"):
        self.file.write_text(page(data_of(town, title)), encoding="utf-8")
        self.browser.open(f"file://{self.file}")
        self.browser.wait("town.low !== null && is_asked === false")
        self.assertEqual(self.browser.run("[document.getElementById('said').textContent, gl.getError()]"), ["", 0])

    def run_(self, script):
        return self.browser.run(script)

    def pixels(self, places):
        """Red, green and blue of places of the window, drawn anew."""
        return self.run_(
            f"(() => {{ draw(); const seen = new Uint8Array(4); return {json.dumps(places)}.map(([x, y]) => {{"
            " gl.readPixels(x, 319 - y, 1, 1, gl.RGBA, gl.UNSIGNED_BYTE, seen); return [...seen].slice(0, 3); }); })()"
        )

    def pixel(self, x, y):
        return self.pixels([[x, y]])[0]

    def all_pixels(self):
        """All bytes of the picture, drawn anew."""
        return bytes.fromhex(
            self.run_(
                "(() => { draw(); const seen = new Uint8Array(4 * 480 * 320);"
                " gl.readPixels(0, 0, 480, 320, gl.RGBA, gl.UNSIGNED_BYTE, seen);"
                " return Array.from(seen, one => one.toString(16).padStart(2, '0')).join(''); })()"
            )
        )

    def place_of(self, *point):
        """Where a point, beside the town's offset, comes in the window."""
        return self.run_(
            f"(() => {{ const m = matrix(town).view, p = [{','.join(map(str, point))}, 1];"
            " const [x, y, , w] = [0, 1, 2, 3].map(r => [0, 1, 2, 3].reduce((sum, c) => sum + m[4 * c + r] * p[c], 0));"
            " return [Math.round((x / w + 1) * 240), Math.round((1 - y / w) * 160)]; })()"
        )

    def test_the_first_view_holds_the_whole_town(self):
        for sizes in ((10, 300, 10), (400, 3, 10), (3, 3, 3)):
            with self.subTest(sizes):
                self.show(Town(cubes((5, 0, 5, *sizes))))
                for k in range(8):
                    x, y = self.place_of(*(size * (k >> axis & 1) for axis, size in enumerate(sizes)))
                    self.assertTrue(0 <= x < 480 and 0 <= y < 320, (x, y))

    def test_the_ground_goes_on_to_the_foot_of_the_window(self):
        """Before a wide flat town: below its low corners there is ground, as beside the town, and no bare sky."""
        self.show(Town(cubes(*((20 * x, 0, 20 * z, 8, 3, 8) for x in range(20) for z in range(12)))))
        self.run_("(() => { shows.ground = false; ask_draw(); })()")
        sky = self.pixel(240, 316)
        self.run_("(() => { shows.ground = true; ask_draw(); })()")
        for x in (4, 240, 476):
            self.assertGreater(max(abs(a - b) for a, b in zip(self.pixel(x, 317), sky)), 8)

    def test_a_town_at_map_coordinates_looks_as_one_at_the_origin(self):
        seen = []
        for x, z in ((0, 0), (2683000, 1248000)):
            self.show(Town(cubes((x, 0, z, 10, 6, 8), (x + 3, 2, z + 8, 2, 2, 0.06))))
            seen.append(self.all_pixels())
        different = sum(abs(a - b) > 8 for a, b in zip(*seen))
        self.assertLess(different, len(seen[0]) / 200)
        self.assertIn("2,683,000", self.run_("box_of('sums').textContent"))

    def test_a_click_tells_what_it_is_and_a_drag_keeps_it(self):
        self.show(
            Town(
                cubes((0, 0, 0, 10, 6, 8)) + ["g <roof>", "v 0 6 0", "v 10 6 0", "v 10 6 8", "v 0 6 8", "f 9 10 11 12"]
            )
        )
        self.browser.click(*self.place_of(5, 3, 8))
        told = self.run_("box_of('picked').textContent")
        self.assertEqual(told, "walllot a · size 10 × 6 × 8 · height 0 to 6")
        self.browser.drag(200, 250, 260, 270)
        self.assertEqual(self.run_("box_of('picked').textContent"), told)
        self.browser.click(*self.place_of(5, 6, 4))
        self.assertEqual(self.run_("box_of('picked').textContent"), "<roof>lot a · size 10 × 0 × 8 · height 6")

    def test_the_wheel_zooms_to_the_pointer(self):
        self.show(Town(cubes((0, 0, 0, 10, 6, 8), (40, 0, 0, 10, 6, 8))))
        corner = (50, 6, 8)
        before, far = self.place_of(*corner), self.run_("view.far")
        self.browser.wheel(*before, -400)
        self.browser.wait(f"view.far < {far} * .7")
        after = self.place_of(*corner)
        self.assertLess(max(abs(a - b) for a, b in zip(before, after)), 4)

    def test_keys_look_from_the_sides_and_from_above(self):
        self.show(Town(cubes((0, 0, 0, 10, 6, 8))))
        for key, corners in (
            ("1", ((0, 0, 8), (10, 0, 8))),
            ("2", ((10, 0, 8), (10, 0, 0))),
            ("3", ((10, 0, 0), (0, 0, 0))),
            ("4", ((0, 0, 0), (0, 0, 8))),
            ("5", ((0, 6, 8), (10, 6, 8))),
        ):
            self.browser.key(key)
            (left, low), (right, other_low) = (self.place_of(*corner) for corner in corners)
            self.assertLess(left, 240, key)
            self.assertLess(240, right, key)
            self.assertEqual(low, other_low, key)

    def test_the_sun_throws_shadows(self):
        self.show(Town(cubes((0, 0, 0, 4, 8, 4))))
        self.browser.key("5")
        self.run_("view.far *= 3")
        # the sun stands at (-.38, .73, .57), so a top of 8 throws its shadow 4.2 to the right and 6.2 back
        shade, sun = self.pixel(*self.place_of(7, 0, -4)), self.pixel(*self.place_of(-4, 0, 7))
        self.assertLess(sum(shade), sum(sun) - 60)

    def test_a_near_post_is_as_wide_as_it_is(self):
        """It grows by a part of its own pixels, not by those of the place that is looked at, twenty units off."""
        self.show(Town(cubes((0, 0, 0, 0.1, 4, 0.1), (0, 0, 40, 1, 1, 1))))
        self.run_("shows.edges = false; look_from([.05, 1.6, 1.6], 0, 0, 55); see(() => {})")
        (left, _), (right, _) = (self.place_of(x, 1.6, 0.1) for x in (0, 0.1))
        row = self.pixels([[x, 160] for x in range(480)])
        seen = [x for x, colour in enumerate(row) if max(abs(a - b) for a, b in zip(colour, row[0])) > 30]
        self.assertLessEqual(abs(seen[0] - left) + abs(seen[-1] + 1 - right), 2, (seen[0], seen[-1], left, right))

    def test_the_picture_has_no_frame_and_the_ground_no_end(self):
        self.show(Town(cubes((0, 0, 0, 4, 8, 4))))
        for tilt, far in ((0.05, 60), (0.3, 12)):
            self.run_(f"Object.assign(view, {{tilt: {tilt}, far: {far}}})")
            column = self.pixels([[20, y] for y in range(320)])
            self.assertGreater(min(map(sum, column)), 530, "a line of the grid is the darkest")

    def test_walls_back_to_back_do_not_flicker(self):
        """Two walls in one plane, of two symbols: each pixel is of one of them, whatever the view."""
        wall = ["g {}", "v 0 0 0", "v 10 0 0", "v 10 6 0", "v 0 6 0", "f {}"]
        lines = ["o a", *wall, "o b", *wall]
        town = Town("\n".join(lines).format("wall", "1 2 3 4", "roof", "8 7 6 5").split("\n"))
        self.show(town)
        for turn in (0.2, 0.5, 0.9):
            self.run_(f"Object.assign(view, {{turn: {turn}, tilt: .3}}); shows.edges = false; look_at(town)")
            seen = self.pixels([self.place_of(x, y, 0) for x in range(1, 10) for y in range(1, 6)])
            self.assertEqual(len({red > 1.6 * blue for red, _, blue in seen}), 1, "a roof is red, and a wall isn't")

    def test_the_legend_hides(self):
        self.show(Town(cubes((0, 0, 0, 10, 6, 8))))
        place = self.place_of(5, 3, 8)
        before = self.pixel(*place)
        self.run_("document.querySelector('#symbols button').click()")
        self.assertNotEqual(self.pixel(*place), before)
        self.assertEqual(self.run_("document.querySelector('#symbols button').getAttribute('aria-pressed')"), "false")
        self.run_("document.querySelector('#symbols button').click()")
        self.assertEqual(self.pixel(*place), before)

    def test_keys_do_what_the_mouse_does(self):
        self.show(Town(cubes((0, 0, 0, 10, 6, 8), (14, 0, 0, 10, 6, 8))))
        seen = ["JSON.stringify([view.turn, view.tilt, view.far, view.centre])"] * 2
        for key in ("ArrowLeft", "ArrowUp", "+", "6", "7", "ArrowUp", "0"):
            seen[0] = self.run_(seen[1])
            self.run_(f"onkeydown({{key: '{key}', target: canvas, preventDefault() {{}}}})")
            self.assertNotEqual(self.run_(seen[1]), seen[0], key)
        self.run_("onkeydown({key: 'i', target: canvas, preventDefault() {}})")
        self.assertIn("lot a", self.run_("box_of('picked').textContent"))
        self.run_("(() => { head.cameras = {a: '105 1.6 220 0 0 55'}; })()")
        self.browser.key("c")
        self.assertEqual(self.run_("camera_words()"), "105 1.6 220 0 0 55")
        moments = []
        for key in "hhH":
            self.browser.key(key)
            moments.append(self.run_("place_of_sun.moment") / 36e5)
        self.assertEqual([round(moment - moments[0], 6) for moment in moments], [0, 0.5, 0])

    def test_the_eye_stands_on_the_ground_before_the_houses(self):
        """Two rows with a way of 6 between them: the eye is 1.6 above the ground, between the rows, and looks along them."""
        rows = [(12 * at, 0, z, 10, 6, 8) for at in range(5) for z in (0, 14)]
        self.show(Town(cubes(*rows)))
        self.browser.key("7")
        (x, y, z), near = self.run_("[axes().eye, axes().near]")
        self.assertAlmostEqual(y, 1.6, 5)
        self.assertTrue(8 < z < 14, z)
        self.assertGreater(abs(near[0]), 0.9)

    def test_a_camera_is_where_its_words_say(self):
        self.show(Town(cubes((100, 0, 200, 10, 6, 8))))
        words = "105 1.6 220 0 0 55"
        self.run_(f"look_by('{words}')")
        self.assertEqual(self.run_("camera_words()"), words)
        x, y = self.place_of(5, 1.6, 8)
        self.assertTrue(abs(x - 240) <= 1 and abs(y - 160) <= 1, (x, y))

    def test_the_sun_stands_where_it_does(self):
        """At noon of 21 June in Greenwich it stands 61.9 degrees high in the south, and at 18:00 in the west."""
        self.show(Town(cubes((0, 0, 0, 10, 6, 8))))
        east, up, south = self.run_("sun_at(51.48, 0, Date.parse('2026-06-21T12:02Z'))")
        self.assertAlmostEqual(up, 0.882, 2)
        self.assertTrue(abs(east) < 0.02 and south > 0.46, (east, south))
        self.assertLess(self.run_("sun_at(51.48, 0, Date.parse('2026-06-21T18:00Z'))[0]"), -0.9)

    def test_each_role_has_a_name_and_text_stands_out(self):
        self.show(Town(cubes((0, 0, 0, 10, 6, 8))))
        named = "[...document.querySelectorAll('[role=img], [role=group], [role=toolbar]')].every(one => one.getAttribute('aria-label'))"
        self.assertTrue(self.run_(named))
        self.assertIn("grid", self.run_("canvas.getAttribute('aria-label')"))
        for scheme in ("light", "dark"):
            self.browser.ask("Emulation.setEmulatedMedia", features=[{"name": "prefers-color-scheme", "value": scheme}])
            colours = self.run_(
                "['#sums', '#symbols b', 'body'].map(one => getComputedStyle(document.querySelector(one)).color)"
                ".concat(getComputedStyle(box_of('sums')).backgroundColor)"
            )
            *texts, back = [[float(part) for part in re.findall(r"[\d.]+", colour)[:3]] for colour in colours]
            for text in texts:
                self.assertGreater(contrast(text, back), 4.5, (scheme, colours))
        self.browser.ask("Emulation.setEmulatedMedia", features=[])

    def test_keys_take_edges_and_the_ground_away(self):
        self.show(Town(cubes((0, 0, 0, 10, 6, 8))))
        seen = [self.all_pixels()]
        for key in "eegg":
            self.browser.key(key)
            seen.append(self.all_pixels())
            self.assertEqual(
                len(re.findall(r"grid [\d.]+", self.run_("box_of('sums').textContent"))), 0 if len(seen) == 4 else 1
            )
        self.assertTrue(seen[0] == seen[2] == seen[4] and len({seen[0], seen[1], seen[3]}) == 3)

    def test_a_cell_of_the_grid_is_as_long_as_is_told(self):
        self.show(Town(cubes((0, 0, 0, 10, 6, 8))))
        for far in (1, 7):
            self.browser.key("5")
            self.run_(f"see(() => {{ view.far *= {far}; }})")
            cell = float(re.search(r"grid ([\d.]+)", self.run_("box_of('sums').textContent")).group(1))
            (left, _), (right, _) = self.place_of(0, 0, 0), self.place_of(cell, 0, 0)
            self.assertTrue(20 < right - left < 130, (cell, left, right))

    def test_the_picture_is_saved(self):
        self.show(Town(cubes((0, 0, 0, 10, 6, 8))), "region/town")
        self.run_(
            "(() => { window.saved = []; const was = URL.createObjectURL; HTMLAnchorElement.prototype.click = function () { saved.push(this.download); };"
            " URL.createObjectURL = blob => { saved.push(blob); return was(blob); }; })()"
        )
        self.browser.key("s")
        self.browser.wait("saved.length === 2")
        name, size, colours = self.run_(
            "createImageBitmap(saved[0]).then(image => { const plain = document.createElement('canvas').getContext('2d');"
            " plain.drawImage(image, 0, 0); const {data} = plain.getImageData(0, 0, 300, 150);"
            " return [saved[1], [image.width, image.height], new Set(new Uint32Array(data.buffer)).size]; })"
        )
        self.assertEqual((name, size), ("town.png", [480, 320]))
        self.assertGreater(colours, 9)

    def test_it_is_not_black_before_a_town_is_there(self):
        self.file.write_text(page(), encoding="utf-8")
        self.browser.open(f"file://{self.file}")
        self.browser.settled()
        self.assertEqual(
            self.run_(
                "[...(() => { const seen = new Uint8Array(4); gl.readPixels(9, 9, 1, 1, gl.RGBA, gl.UNSIGNED_BYTE, seen); return seen; })()]"
            ),
            [196, 212, 227, 255],
        )

    def show_lines(self, *lines):
        """Shows instances by their lines."""
        self.file.write_text(page(packed("town", lines, {})), encoding="utf-8")
        self.browser.open(f"file://{self.file}")
        self.browser.wait("town.low !== null && is_asked === false")

    def corners(self, mesh, first=0):
        """The corners of the one instance of a mesh, in the world."""
        told = self.run_(
            f"(() => {{ const {{mesh, data}} = town.batches.get('{mesh}');"
            f" return mesh.corners.slice({first}).map(corner => spot(corner, data, 0).map((at, k) => at + town.offset[k] + 0)); }})()"
        )
        return [tuple(round(part, 6) for part in corner) for corner in told]

    def test_the_solids_of_the_program_are_drawn_as_it_prints_them(self):
        """The corners of each solid are those of an example that printed it, by its unit mesh."""
        for solid, way, (w, h, d), corners in (
            ("hip", "_along", (6, 2, 4), [(2, 2, 2), (4, 2, 2)]),
            ("hip", "_across", (4, 2, 6), [(2, 2, 2), (2, 2, 4)]),
            ("gable", "_along", (6, 2, 4), [(0, 2, 2), (6, 2, 2)]),
            ("gable", "_across", (4, 2, 6), [(2, 2, 0), (2, 2, 6)]),
            ("shed", "", (6, 2, 4), [(6, 2, 4), (0, 2, 4)]),
        ):
            with self.subTest((solid, w, h, d)):
                self.show_lines(f"a roof {solid} 0 0 0 +X+Y+Z {w} {h} {d}")
                self.assertEqual(self.corners(solid + way, 4), corners)

    def test_a_quad_stands_where_its_axes_lead(self):
        """The right face of a box of 10 by 3 by 8: by the table of components its X leads along -Z, and its Z along X."""
        self.show_lines("a wall quad 10 0 8 -Z+Y+X 8 3 0")
        self.assertEqual(self.corners("quad"), [(10, 0, 8), (10, 0, 0), (10, 3, 0), (10, 3, 8)])

    def test_the_graphics_processor_puts_corners_where_the_script_does(self):
        """Each corner of a turned roof that is seen is drawn where the script works it out: beside it are sky and roof."""
        self.show_lines("a roof gable 5/2 0 9 -Z+Y+X 8 3 4", "a ground quad 0 0 0 +X+Y+Z 1 1/1000 0")
        self.run_("(() => { shows.ground = shows.edges = false; })()")
        for key in "1234":
            self.browser.key(key)
            for x, y, z in ((2.5, 0, 9), (6.5, 0, 1), (4.5, 3, 9), (4.5, 3, 1)):
                left, top = self.place_of(x, y, z)
                seen = self.pixels([(left + a, top + b) for a in (-4, 4) for b in (-4, 4)])
                self.assertGreater(len(set(map(tuple, seen))), 1, (key, x, y, z))

    def a_wall_becomes_a_roof(self):
        """Of one lot, at a moment that stands still; where the solid's middle is seen."""
        self.show_lines("a wall cube 0 0 0 +X+Y+Z 10 6 8")
        self.browser.key("1")
        place = self.place_of(5, 3, 8)
        shown = Shown("town")
        shown.put({b"a wall cube 0 0 0 +X+Y+Z 10 6 8": 1})
        stamp = f"{shown.run}.{shown.number}"
        shown.put({b"a wall cube 0 0 0 +X+Y+Z 10 6 8": -1, b"a roof cube 0 0 0 +X+Y+Z 10 6 8": 1})
        answer = list(shown.after(stamp))
        self.run_(
            "(() => { const now = performance.now(); performance.now = () => now; head.save = 1;"
            f" take_answer(new Uint8Array({answer}).buffer); }})()"
        )
        return place

    def later(self, by, place):
        """The pixel of a place when so many thousandths of a second are over."""
        self.run_(f"(() => {{ const later = performance.now() + {by}; performance.now = () => later; }})()")
        return self.pixel(*place)

    def test_who_wants_no_motion_sees_no_fading(self):
        motion = {"name": "prefers-reduced-motion", "value": "reduce"}
        self.browser.ask("Emulation.setEmulatedMedia", features=[motion])
        self.addCleanup(self.browser.ask, "Emulation.setEmulatedMedia", features=[])
        place = self.a_wall_becomes_a_roof()
        seen = [self.later(by, place) for by in (50, 700, 800)]
        self.assertEqual(seen[0], seen[1])
        self.assertNotEqual(seen[1], seen[2])

    def test_what_comes_lights_up_and_what_goes_is_gone(self):
        place = self.a_wall_becomes_a_roof()
        lit, after = self.pixel(*place), self.later(1500, place)
        self.assertGreater(lit[0] - lit[2], after[0] - after[2])
        self.assertEqual(self.run_("town.counts"), [0, 1])


if __name__ == "__main__":
    unittest.main()
