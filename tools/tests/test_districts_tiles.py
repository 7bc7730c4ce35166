"""Tiles of a region hold what is joined, in boxes that hold it, with coarser heads above."""
import json
import unittest

from regions import RULES, RegionTest, asking, chances, random_lots
from tiles_reader import read_table, read_tileset

LOTS = [f"lot l{k} 1 {k % 6 * 100} {k // 6 * 100} 4 4 wall" for k in range(36)]
COARSE = [*RULES[:2], '1: wall -> I("gable")', "end"]


def corners_of(town):
    """The points of an OBJ text, as tiles have them."""
    points = [tuple(map(float, line.split()[1:])) for line in town if line.startswith("v ")]
    return {(x, -z, y) for x, y, z in points}


class Tiles(RegionTest):
    def tiles(self, *words):
        self.rounds()
        status, said, told = self.call("tiles", self.folder, "--workers", "1")
        self.assertEqual((status, told, said.split("\n")[-2]), (0, "", str(self.folder / "tiles" / "tileset.json")))
        return read_tileset(self.folder / "tiles" / "tileset.json")

    def assert_same_places(self, tiles, lines):
        self.assert_whole(lines)
        drawn = {point for _, _, triangles in tiles for triangle in triangles for point in triangle}
        wanted = corners_of(self.joined()[0])
        self.assertEqual(
            {tuple(round(number, 3) for number in point) for point in drawn},
            {tuple(round(number, 3) for number in point) for point in wanted},
        )

    def test_tiles_hold_the_town(self):
        lines = [*RULES, *LOTS]
        self.cut(lines, 4)
        tiles = self.tiles()
        self.assertEqual(sum(len(triangles) for _, _, triangles in tiles), 36 * 12)
        self.assertEqual({error for _, error, _ in tiles}, {0})
        self.assertGreater(len(tiles), 8)
        self.assert_same_places(tiles, lines)

    def test_random_regions(self):
        for chance in chances(3, 5):
            lines = asking(*random_lots(chance, 20, 90))
            self.cut(lines, 3, *(["--rings", "1"] if chance.random() < 0.5 else []))
            self.assert_same_places(self.tiles(), lines)

    def test_places_far_off_are_told_from_near(self):
        """As floats of four bytes 10,000,000.25 and 10,000,000.75 are whole numbers."""
        lines = [*RULES, "lot a 1 10000000.25 -9999999.75 4 4 wall"]
        self.cut(lines)
        ((_, _, triangles),) = self.tiles()
        self.assertEqual(min(triangles[0]), (10000000.25, 9999998.75, 0.0))

    def test_a_town_about_its_middle_is_told_from_near(self):
        """The square that holds both lots in one job is as large as all numbers of scripts."""
        self.cut([*RULES, "lot a 1 -7.25 -3.5 4 4 wall", "lot b 1 90 70 4 4 wall"])
        ((_, _, triangles),) = self.tiles()
        self.assertIn((-7.25, 3.5, 0.0), {point for corners in triangles for point in corners})

    def test_coarser_heads_are_levels_of_detail(self):
        coarse = self.top / "coarse.cga"
        coarse.write_text("\n".join(COARSE))
        self.cut([*RULES, *LOTS], 2, "--coarser", coarse, "7/2", "--coarser", coarse, "20")
        tiles = self.tiles()
        self.assertEqual({error for _, error, _ in tiles}, {0, 3.5, 20})
        for error in (0, 3.5, 20):
            self.assertEqual(sum(len(triangles) for _, found, triangles in tiles if found == error), 36 * 12, error)
        below = {error: min(depth for depth, found, _ in tiles if found == error) for error in (0, 3.5, 20)}
        self.assertLess(below[20], below[3.5])
        self.assertLess(below[3.5], below[0])
        self.assert_whole([*RULES, *LOTS])

    def test_what_was_made_stays(self):
        self.cut([*RULES, *LOTS], 4)
        self.tiles()
        before = {path.name: path.stat().st_mtime_ns for path in (self.folder / "tiles").iterdir()}
        self.cut([*RULES, LOTS[0].replace(" 1 ", " 2 ", 1), *LOTS[1:]], 4)
        self.tiles()
        after = {path.name: path.stat().st_mtime_ns for path in (self.folder / "tiles").iterdir()}
        self.assertEqual(len(after.items() - before.items()), 2, "one tile, and the tree")

    def test_a_tile_that_draws_nothing(self):
        self.cut([*RULES, "lot a 0 7 9 4 4 wall", "lot b 0 90 9 4 4 wall"], 1)
        self.assertEqual([triangles for _, _, triangles in self.tiles()], [[], []])
        for path in self.jobs("out"):
            path.write_text(
                "".join(line for line in path.read_text().splitlines(True) if not line.startswith("# hull"))
            )
        self.assertEqual(len(self.tiles()), 2)

    def ground(self, **properties):
        """A map's ground that knows the first lot of LOTS, and a pond."""
        ring = [[0, 0], [4, 0], [4, 4], [0, 4]]
        plot = {"lot": "l0", "feature": 1, "name": "1/1", "area": 16, "ring": ring, "holes": [], "front": ring[2:]}
        pond = {"kind": "water", "name": "", "ring": [[6, 0], [9, 0], [9, 4]], "holes": []}
        place = {"system": "EPSG:25832", "units": "metres", "origin": ["0", "0"], "angle": 0}
        plots = [{**plot, "properties": properties}]
        told = {"format": "cga_city ground 1", "place": place, "plots": plots, "ways": [], "areas": [pond]}
        path = self.top / "ground.json"
        path.write_text(json.dumps(told))
        return path

    def tables(self, number=0):
        """The rows of all lots' tables, by lot."""
        paths = sorted((self.folder / "tiles").glob("*.glb"))
        return {row["lot"]: row for path in paths for row in read_table(path.read_bytes(), number)}

    def test_a_tile_knows_lots_and_symbols(self):
        self.cut([*RULES, *LOTS[:4]], 2)
        self.tiles()
        self.assertEqual(self.tables(), {f"l{k}": {"lot": f"l{k}", "name": f"l{k}"} for k in range(4)})
        path = next((self.folder / "tiles").glob("*.glb"))
        self.assertEqual(read_table(path.read_bytes(), 1), [{"symbol": "wall"}])

    def test_a_map_gives_names_properties_and_ground(self):
        self.cut([*RULES, *LOTS[:4]], 1, "--ground", self.ground(zone="W2", storeys=3))
        tiles = self.tiles()
        self.assertEqual(self.tables()["l0"], {"lot": "l0", "name": "1/1", "zone": "W2", "storeys": "3"})
        self.assertEqual(self.tables()["l1"], {"lot": "l1", "name": "l1"})
        self.assertEqual(self.tables()["ground"], {"lot": "ground", "name": "ground"})
        drawn = {tuple(round(part, 3) for part in at) for *_, some in tiles for three in some for at in three}
        self.assertIn((9, -4, 0.03), drawn, "a corner of the pond")
        before = self.todo(), set((self.folder / "tiles").glob("*.glb"))
        self.cut([*RULES, *LOTS[:4]], 1, "--ground", self.ground(zone="W3", storeys=3))
        self.assertEqual(self.todo(), before[0], "no job is run again")
        self.tiles()
        self.assertEqual(
            len(set((self.folder / "tiles").glob("*.glb")) - before[1]), 2, "the tile of l0, and the ground"
        )
        self.call("tidy", self.folder)
        self.assertEqual((len(list(self.folder.glob("facts/*"))), len(list(self.folder.glob("tiles/*.glb")))), (1, 5))

    def test_the_ground_of_another_town_is_refused(self):
        answer = self.cut([*RULES, "lot z 1 0 0 4 4 wall"], 1, "--ground", self.ground())
        self.assert_refused(answer, "ground.json: no lot of the script is in it")

    def test_a_coarser_head_that_asks_is_refused(self):
        coarse = self.top / "coarse.cga"
        coarse.write_text("\n".join(asking()))
        self.assert_refused(
            self.cut([*RULES, *LOTS], 4, "--coarser", coarse, "3"),
            "rule 7 asks by Scope.occ, which a coarser head can't",
        )
        for error in ("far", "-3", "9" * 400):
            self.assert_refused(
                self.cut([*RULES, *LOTS], 4, "--coarser", coarse, error), f"{error} isn't a number of units by which"
            )


if __name__ == "__main__":
    unittest.main()
