"""Outputs that are damaged are named and mended, and nothing of another cut is taken for the region's."""
import os
import random
import shutil
import unittest
from unittest.mock import patch

from regions import RULES, RegionTest, ended

from cga_city_lib import files

LOTS = [f"lot l{at} 2 {10 * at} 0 4 4 wall" for at in range(6)]
REGION = [*RULES, *LOTS]


def damaged(lines, chance):
    """The lines of an output, changed at one place of the town."""
    first, last = lines.index(b"# cga_city obj\n") + 1, len(lines) - 8
    at, lines = chance.randrange(first, last), list(lines)
    way = chance.choice(["missing", "doubled", "moved", "byte"])
    if way == "byte":
        lines[at] = lines[at][:-2] + bytes([lines[at][-2] ^ 1]) + b"\n"
    else:
        line = lines.pop(at)
        lines[at:at] = {"missing": [], "doubled": [line, line], "moved": [lines.pop(at), b"#\n", line]}[way]
    return lines


class Damage(RegionTest):
    def made(self, lines=REGION):
        self.cut(lines, 3)
        self.run_jobs()
        return self.jobs("out")

    def test_an_output_that_is_damaged_in_one_place_is_named_and_run_again(self):
        outputs = self.made()
        for number in range(40):
            chance = random.Random(number)
            path = chance.choice(outputs)
            lines = path.read_bytes().splitlines(keepends=True)
            path.write_bytes(b"".join(damaged(lines, chance)))
            with self.subTest(number):
                for words in (["join", self.folder, "--workers", "1"], ["check", self.folder, "--all"]):
                    status, _, told = self.call(*words)
                    self.assertEqual((status, path.name in told), (1, True), told)
                self.assertFalse((self.folder / "town.obj").exists())
                self.call("tidy", self.folder)
                self.assertEqual(self.todo(), [path.stem])
                self.run_jobs()
        self.assert_whole(REGION)

    def test_tiles_take_no_damaged_output(self):
        path = self.made()[0]
        path.write_bytes(path.read_bytes().replace(b"\nv ", b"\nv 0", 1))
        status, _, told = self.call("tiles", self.folder, "--workers", "1")
        self.assertEqual(status, 1)
        self.assertIn(f"{path} isn't what its job prints, since its digest is that of other bytes", told)

    def test_a_town_of_another_cut_is_taken_away_whatever_the_clocks_say(self):
        self.made([*REGION, "bill"])
        for word in ("join", "tiles"):
            self.assertEqual(self.call(word, self.folder, "--workers", "1")[0], 0)
        made = ["counts", "tiles/tileset.json", "town.bill", "town.faults", "town.obj"]
        for name in made:
            os.utime(self.folder / name, (4e9, 4e9))
        self.assertEqual([name for name in made if not (self.folder / name).exists()], [])
        self.cut([*REGION, "bill"], 3)
        self.assertEqual([name for name in made if not (self.folder / name).exists()], [], "nothing was changed")
        self.cut([*REGION[:-1], "bill"], 3)
        self.assertEqual([name for name in made if (self.folder / name).exists()], [])

    def test_a_town_that_was_put_behind_the_cut_is_told_and_taken_away_by_a_check(self):
        self.made()
        self.call("join", self.folder, "--workers", "1")
        shutil.copy(self.folder / "town.obj", self.top)
        self.made(REGION[:-1])
        shutil.copy(self.top / "town.obj", self.folder)
        self.assertIn("town.obj is of another cut", self.call("status", self.folder)[1])
        self.call("check", self.folder)
        self.assertFalse((self.folder / "town.obj").exists())

    def test_a_folder_that_can_not_be_written_is_checked_and_joined_elsewhere(self):
        self.made()
        before = {path: path.stat().st_mtime_ns for path in self.folder.rglob("*")}
        away = self.top / "away"
        with patch.object(files.os, "access", lambda path, _: self.folder not in [path, *path.parents]):
            self.assertEqual(self.call("check", self.folder)[0], 0)
            self.assertEqual(self.call("join", self.folder, "--workers", "1", "--to", away)[0], 0)
        self.assertEqual({path: path.stat().st_mtime_ns for path in self.folder.rglob("*")}, before)
        town = self.joined(away)
        self.assert_whole(REGION)
        self.assertEqual(town, self.joined())

    def test_an_output_that_is_a_folder_is_named(self):
        path = self.made()[0]
        path.unlink()
        (path / "in").mkdir(parents=True)
        self.assertIn(f"{path} is a folder: take it away", self.call("status", self.folder)[1])
        self.assert_refused(self.call("join", self.folder), f"{path} is a folder")
        self.assertEqual(self.call("tidy", self.folder)[0], 0)
        self.assertEqual(self.todo(), [path.stem])

    def test_a_face_that_names_a_corner_that_is_not_there(self):
        """As a program would print it that is wrong: the digest is right."""
        path = self.made()[0]
        lines = path.read_text().replace("\nv ", "\n#v ", 1).split("\n")[:-2]
        path.write_bytes(ended(lines, path.stem, self.program_bytes()))
        told = self.call("join", self.folder, "--workers", "1")[2]
        self.assertIn(f"{path} isn't what its job prints, since a face of the lot `l2` names a corner", told)


if __name__ == "__main__":
    unittest.main()
