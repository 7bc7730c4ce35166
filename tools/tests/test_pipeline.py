"""The make file from scripts to OBJ, page and glTF, with a stand-in for the program."""
import json
import shutil
import struct
import subprocess
import tempfile
import unittest
from pathlib import Path

TESTS = Path(__file__).resolve().parent
MAKEFILE = TESTS.parent.parent / "examples" / "pipeline" / "Makefile"


@unittest.skipUnless(shutil.which("make"), "make isn't there")
class Pipeline(unittest.TestCase):
    def setUp(self):
        folder = tempfile.TemporaryDirectory()
        self.addCleanup(folder.cleanup)
        self.folder = Path(folder.name)

    def make(self, script, *targets):
        (self.folder / "town.cga").write_text(script, encoding="utf-8")
        words = ["make", "-s", "-f", MAKEFILE, "SCRIPTS=.", "NAMES=town", f"PROGRAM={TESTS / 'stand_in'}", *targets]
        done = subprocess.run(words, cwd=self.folder, capture_output=True, text=True)
        return done.returncode, done.stdout, sorted(path.name for path in self.folder.iterdir())

    def test_a_script_becomes_three_files(self):
        status, _, made = self.make("lot a 1 0 0 1 1 wall\nlot b 1 0 0 1 1 roof\nprint\n")
        self.assertEqual((status, made), (0, ["town.cga", "town.glb", "town.html", "town.obj"]))
        data = (self.folder / "town.glb").read_bytes()
        self.assertEqual(struct.unpack("<4sII", data[:12]), (b"glTF", 2, len(data)))
        told = json.loads(data[20 : 20 + struct.unpack("<I", data[12:16])[0]])
        self.assertEqual([node["name"] for node in told["nodes"]], ["a", "b", "town"])
        self.assertEqual([material["name"] for material in told["materials"]], ["wall", "roof"])
        self.assertEqual([accessor["count"] for accessor in told["accessors"]], [36, 24, 24, 24] * 2)

    def test_places_and_a_merged_town(self):
        status, _, made = self.make("lot a 1 0 0 1 1 wall\nprint\n", "town.csv", "town.merged.obj")
        self.assertEqual(
            (status, made), (0, ["town.cga", "town.csv", "town.merged.mtl", "town.merged.obj", "town.obj"])
        )

    def test_a_refused_line_stops_it(self):
        status, said, made = self.make("lot a 1 0 0 0 1 wall\nprint\n")
        self.assertEqual((status, made), (2, ["town.cga"]))
        self.assertIn("town.cga:1:5: BadLot", said)

    def test_a_shape_that_came_to_nothing_stops_it(self):
        self.assertEqual(self.make("lot flat 1 0 0 1 1 wall\nprint\n", "town.html")[::2], (2, ["town.cga"]))


if __name__ == "__main__":
    unittest.main()
