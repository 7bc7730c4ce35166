"""The page that loads tiles of a region as they come into view, in a browser without a window, where Chromium is there."""
import json
import sys
import threading
import unittest
from functools import partial
from http.server import SimpleHTTPRequestHandler, ThreadingHTTPServer
from pathlib import Path

TESTS = Path(__file__).resolve().parent
sys.path[:0] = [str(TESTS), str(TESTS.parent)]

from browser import CHROMIUM, shared  # noqa: E402
from in_process import called  # noqa: E402
from regions import RULES, STAND_IN, RegionTest, whole  # noqa: E402

from cga_city_lib import page as pages  # noqa: E402
from cga_city_lib.obj import Town  # noqa: E402
from cga_city_lib.region_page import RegionTiles, region_handler  # noqa: E402
from cga_city_lib.serve import server_of  # noqa: E402

if not CHROMIUM:
    print(
        "SKIPPED: tiles aren't tried in a browser, since Chromium isn't there (apt-get install chromium)",
        file=sys.stderr,
    )
COARSE = [*RULES[:2], '1: wall -> I("gable")', "end"]
IS_STILL = "tiles && tiles.coming === 0 && tiles.wanted.length === 0 && is_asked === false"


def lots(side, x=0, z=0):
    return [f"lot l{k} 1 {x + k % side * 20} {z + k // side * 20} 8 8 wall" for k in range(side * side)]


class Pages(RegionTest):
    def tiles(self, lines, *words):
        """Makes the tiles of a region, and a page beside them; gives its path."""
        self.cut(lines, 4, *words)
        self.rounds()
        self.assertEqual(self.call("tiles", self.folder, "--workers", "1")[0], 0)
        page = self.folder / "tiles" / "a page's $name.html"
        self.assertEqual(called("view", self.folder / "tiles" / "tileset.json", page), (0, "", ""))
        return page


class Data(Pages):
    def test_the_page_is_told_where_the_tiles_are(self):
        self.tiles([*RULES, *lots(2)])
        page = self.top / "page.html"
        called("view", self.folder / "tiles" / "tileset.json", page)
        self.assertIn('"tileset": "a%20region%27s%20%24folder/tiles/tileset.json"', page.read_text(encoding="utf-8"))

    def test_what_is_no_tileset_is_refused(self):
        path = self.top / "x.json"
        for text in ("", "[]", "{}", json.dumps({"asset": {"version": "2.0"}, "root": {"boundingVolume": {}}})):
            path.write_text(text)
            self.assert_refused(
                called("view", path, self.top / "page.html"), f"{path} isn't a tileset.json of 3D Tiles 1.1"
            )


@unittest.skipUnless(CHROMIUM, "Chromium isn't there")
class InBrowser(Pages):
    @classmethod
    def setUpClass(cls):
        cls.browser = shared()

    def serve(self, folder):
        """The address of a folder, and the files that it was asked for."""
        asked = []

        class Handler(SimpleHTTPRequestHandler):
            def log_request(self, *_):
                asked.append(self.path)

            def log_error(self, *_):
                pass

        server = ThreadingHTTPServer(("127.0.0.1", 0), partial(Handler, directory=folder))
        self.addCleanup(server.server_close)
        self.addCleanup(server.shutdown)
        threading.Thread(target=server.serve_forever, daemon=True).start()
        return f"http://127.0.0.1:{server.server_address[1]}/", asked

    def open(self, page):
        address, asked = self.serve(page.parent)
        self.browser.open(address + "a%20page's%20$name.html")
        self.browser.wait(IS_STILL)
        return asked

    def still(self):
        self.browser.settled()
        self.browser.wait(IS_STILL)

    def seen(self):
        """The errors of the tiles that are drawn, and how many these are."""
        self.assertEqual(self.browser.run("[box_of('said').textContent, gl.getError()]"), ["", 0])
        return self.browser.run("[[...new Set(tiles.drawn.map(tile => tile.error))].sort(), tiles.drawn.length]")

    def colours(self):
        """How many pixels of the picture are no ground and no sky, as grey as they are."""
        return self.browser.run(
            "(() => { draw(); const seen = new Uint8Array(4 * 480 * 320); gl.readPixels(0, 0, 480, 320, gl.RGBA, gl.UNSIGNED_BYTE, seen);"
            " let sum = 0; for (let k = 0; k < seen.length; k += 4) sum += seen[k] - seen[k + 2] > 20; return sum; })()"
        )

    def colours_at(self, places):
        """The colours of places of the town, and of the sky, from a low view."""
        self.browser.run(
            "(() => { refine = () => {}; Object.assign(view, {turn: .4, tilt: .2, lens: 1, far: 8, centre: [4.5, .5, .5]}); draw(); })()"
        )
        self.browser.wait("is_asked === false")
        return self.browser.run(
            f"(() => {{ draw(); const m = matrix(town).view, seen = new Uint8Array(4), pixel = (x, y) => {{"
            " gl.readPixels(x, y, 1, 1, gl.RGBA, gl.UNSIGNED_BYTE, seen); return [...seen].slice(0, 3); };"
            f" return [...{json.dumps(places)}.map(place => {{ const p = [...minus(place, town.offset), 1];"
            " const [x, y, , w] = [0, 1, 2, 3].map(r => [0, 1, 2, 3].reduce((sum, c) => sum + m[4 * c + r] * p[c], 0));"
            " return pixel(Math.round((x / w + 1) * 240), Math.round((y / w + 1) * 160)); }), pixel(240, 315)]; })()"
        )

    def look(self, x, y, z, far):
        """Looks at a place of the town from so far off."""
        self.browser.run(
            f"see(() => {{ Object.assign(view, {{centre: minus([{x}, {y}, {z}], town.offset), far: {far}}}); }})"
        )
        self.still()

    def test_near_tiles_are_loaded_and_far_ones_stay_coarse(self):
        coarse = self.top / "coarse.cga"
        coarse.write_text("\n".join(COARSE))
        asked = self.open(self.tiles([*RULES, *lots(16)], "--coarser", coarse, "6"))
        self.assertEqual(self.seen()[0], [6], "from afar the coarser head alone")
        self.assertGreater(self.colours(), 100)
        before = len(asked)
        self.look(100, 0, 100, 40)
        errors, number = self.seen()
        self.assertEqual(errors, [0])
        self.assertLess(number, 20)
        self.assertLess(len(asked) - before, 30, "of 64 tiles those that are near")
        self.assertGreater(self.colours(), 1000)
        self.browser.key("f")
        self.still()
        self.assertEqual(self.seen()[0], [6])
        self.assertEqual(len(asked), len(set(asked)), "what is here isn't loaded again")

    def test_a_click_tells_the_place_and_the_tile(self):
        self.open(self.tiles([*RULES, "lot a 1 2683000 1248000 8 8 wall"]))
        self.look(2683000.5, 0.5, 1248000.5, 4)
        self.browser.click(240, 160)
        told = self.browser.run("box_of('picked').textContent")
        self.assertRegex(
            told, r"^268300[01](\.\d+)?, [01](\.\d+)?, 124800[01](\.\d+)?tile \w+\.glb · as the jobs printed it$"
        )
        self.assertIn("1 of 1 tiles, 12 triangles", self.browser.run("box_of('sums').textContent"))

    def test_places_are_told_from_near_the_eye(self):
        """A town far from the others is drawn as one at the origin."""
        self.open(self.tiles([*RULES, *lots(1), *(line.replace("lot l", "lot m") for line in lots(1, 90000, 70000))]))
        self.look(90001, 0.4, 70001, 5)
        self.assertEqual(self.browser.run("[town.offset, tiles.drawn.length]"), [[90001, 0, 70001], 1])
        self.assertGreater(self.colours(), 5000)

    def follow(self):
        """The page of the region's folder, as a preview shows it, and the tiles that it asks for."""
        asked, tiles = [], RegionTiles(self.folder)

        class Handler(region_handler(tiles)):
            def do_GET(self):
                asked.append(self.path)
                super().do_GET()

        server = server_of(0, Handler)
        self.addCleanup(server.server_close)
        self.addCleanup(server.shutdown)
        threading.Thread(target=server.serve_forever, daemon=True).start()
        self.browser.open(f"http://127.0.0.1:{server.server_address[1]}/")
        self.browser.wait(IS_STILL)
        return asked

    def test_a_region_that_is_edited_changes_the_tiles_that_are_concerned(self):
        """A lot gets more cubes, goes, and comes back; each time one tile is another one, and all others stay."""
        town = lots(6)
        self.tiles([*RULES, *town])
        asked = self.follow()
        known = self.browser.run("tiles.number")
        before = {name for name in asked if name.endswith(".glb")}
        self.assertEqual(len(before), known)
        part = "tiles.drawn.map(tile => tile.parts[0].vertices)"
        self.browser.run(f"window.kept = new Set({part})")
        for lines in ([town[0].replace(" 1 0 ", " 3 0 "), *town[1:]], town[1:], town):
            self.tiles([*RULES, *lines])
            asked.clear()
            self.browser.wait("box_of('notice').textContent !== ''")
            self.assertEqual(self.browser.run("box_of('notice').textContent"), f"1 of {known} tiles are new")
            self.browser.wait(IS_STILL)
            self.browser.run("notice('')")
            self.assertLessEqual(len([name for name in asked if name.endswith(".glb")]), 1)
            self.assertEqual(self.seen(), [[0], known])
            self.assertEqual(self.browser.run(f"{part}.filter(one => !kept.has(one)).length"), 1)

    def test_the_page_of_a_folder_tells_no_other_file(self):
        self.tiles([*RULES, *lots(2)])
        self.follow()
        for name in ("plan.json", "tiles/../plan.json", "tiles/", "state/x", "set"):
            self.assertEqual(self.browser.run(f"fetch('/{name}').then(answer => answer.status)"), 404, name)
        self.assertEqual(called("preview", self.top)[0], 2)

    def test_turned_tiles_are_drawn_where_they_stand(self):
        """The cube of the second lot is 1 by 1 from (0, 10) in a frame that is turned by 30 degrees."""
        self.open(self.tiles([*RULES, "lot a 1 40 0 8 8 wall", "lot b 1 0 10 8 8 wall turned 30"]))
        places = "[...tiles.drawn.find(tile => tile.matrix[1]).parts[0].places]"
        known = [(-10 * 0.5, 10 * 0.8660254), (-11 * 0.5 + 0.8660254, 11 * 0.8660254 + 0.5)]
        tile = "tiles.drawn.find(tile => tile.matrix[1]).origin"
        numbers, (x, y, z) = self.browser.run(f"[{places}, {tile}]")
        seen = {(round(a + x, 3), round(c + z, 3)) for a, _, c in zip(*[iter(numbers)] * 3)}
        self.assertTrue({(round(a, 3), round(c, 3)) for a, c in known} <= seen, seen)
        self.assertEqual(self.seen()[1], 2)
        self.assertGreater(self.colours(), 100)

    def test_tiles_are_drawn_as_a_town_is(self):
        """A wall, a pane and a lawn look as in the page of their town, with sky, sun and shadow. A place more than a cube away is
        in the shadow of the wall: the sun stands at (-.38, .73, .57)."""
        lines = [
            *RULES,
            *(f"lot l{at} 1 {4 * at} 0 2 2 {symbol}" for at, symbol in enumerate(["wall", "pane", "lawn"])),
        ]
        places = [(0.3, 0.5, 1), (0.5, 1, 0.5), (4.4, 0.5, 1), (8.5, 1, 0.5), (1.25, 0, 0.1), (6, 0, 3)]
        self.open(self.tiles(lines))
        shown = self.colours_at(places)
        page = self.top / "town.html"
        page.write_text(pages.page(pages.data_of(Town(whole(STAND_IN, lines)[0]), "town")), encoding="utf-8")
        self.browser.open(page.as_uri())
        self.browser.wait("town.low !== null && is_asked === false")
        for place, one, other in zip([*places, "sky"], shown, self.colours_at(places)):
            self.assertLess(max(abs(a - b) for a, b in zip(one, other)), 12, (place, one, other))
        *_, shade, sun, sky = shown
        self.assertLess(sum(shade), sum(sun) - 60)
        self.assertGreater(sky[2], sky[0])

    def test_no_more_is_loaded_than_can_be_drawn(self):
        self.open(self.tiles([*RULES, *lots(4)]))
        self.assertEqual(self.seen()[1], 4)
        self.browser.run(
            "(() => { tiles.triangles = () => MOST_TRIANGLES; for (const tile of [...tiles.loaded]) tile.turn = -1; see(() => { view.turn = 3; }); })()"
        )
        self.browser.settled()
        self.assertIn(
            "and no more can be drawn: come nearer",
            self.browser.run("(() => { tiles.wanted.push(tiles.root); tiles.load(); return tiles.told(); })()"),
        )

    def test_what_cannot_be_had_is_told(self):
        page = self.tiles([*RULES, *lots(1)])
        for path in page.parent.glob("*.glb"):
            path.write_bytes(b"no tile" * 9)
        self.open(page)
        self.assertIn("no glTF file in one piece", self.browser.run("box_of('said').textContent"))
        for path in page.parent.glob("*.glb"):
            path.unlink()
        self.open(page)
        self.assertIn("it isn't there; tools/districts tiles makes it", self.browser.run("box_of('said').textContent"))
        self.browser.open(page.as_uri())
        self.browser.wait("box_of('said').textContent.includes('python3 -m http.server')")


if __name__ == "__main__":
    unittest.main()
