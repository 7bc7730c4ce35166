"""No tool writes over a file that it was given, and each looks at the files that it was given before it begins to work."""
import json
import os
import sys
import tempfile
import unittest
from pathlib import Path
from unittest.mock import patch

TESTS = Path(__file__).resolve().parent
TOP = TESTS.parent.parent
sys.path[:0] = [str(TESTS), str(TESTS.parent)]

from in_process import called  # noqa: E402

SCRIPT = b'rules\nattr storey = 3\n1: house -> S(1r, storey, 1r) I("cube")\nend\nlot a 1 0 0 12 9 house\n'
RULES = b'@StartRule\nLot --> extrude(9) Mass\nMass --> color("#ff0000") X.\n'
IMPORTS = b'import other: "other.cga"\nLot --> extrude(9) other.Mass\n'
TEXT = b"o a\ng wall\nv 0 0 0\nv 1 0 0\nv 0 1 0\nf 1 2 3\n"
FILES = {
    "a.cga": SCRIPT,
    "a.html": SCRIPT,
    "a.glb": SCRIPT,
    "a.usda": SCRIPT,
    "a.png": SCRIPT,
    "a.obj": TEXT,
    "a.dxf": SCRIPT,
    "a.csv": SCRIPT,
    "a.json": SCRIPT,
    "a.svg": SCRIPT,
    "a.city.json": SCRIPT,
    "ground.json": b"{}",
    "map.json": b"{}",
    "r.cga": RULES,
    "i.cga": IMPORTS,
    "other.cga": RULES,
    "own.json": json.dumps({"wall": {"colour": "ffffff", "texture": "a.png"}}).encode(),
    "dressed.cga": SCRIPT + b"# mesh house a.glb\n",
    "block.txt": b"Project: x\n",
}
OVER = [  # a call, and the file that it would have written over
    ("view a.cga a.cga", "a.cga"),
    ("view a.html a.html", "a.html"),
    ("view a.html ./folder/../a.html", "./folder/../a.html"),
    ("view a.html symbolic.html", "symbolic.html"),
    ("view a.html hard.html", "hard.html"),
    ("view a.cga --ground a.html a.html", "a.html"),
    ("glb a.cga a.cga", "a.cga"),
    ("glb a.glb a.glb", "a.glb"),
    ("glb --mesh wall=a.glb a.obj a.glb", "a.glb"),
    ("glb dressed.cga a.glb", "a.glb"),
    ("usda a.usda a.usda", "a.usda"),
    ("picture a.png a.png", "a.png"),
    ("picture a.cga a.cga", "a.cga"),
    ("plan a.cga --dxf a.cga", "a.cga"),
    ("plan a.dxf --dxf a.dxf", "a.dxf"),
    ("places a.csv a.csv", "a.csv"),
    ("merge a.obj a.obj", "a.obj"),
    ("merge --colours b.mtl a.obj b.obj", "b.mtl"),
    ("port r.cga r.cga", "r.cga"),
    ("port r.cga --colours r.cga", "r.cga"),
    ("port i.cga other.cga", "other.cga"),
    ("port i.cga x.cga --colours other.cga", "other.cga"),
    ("parcels map.json a.cga --ground map.json", "map.json"),
    ("parcels a.csv a.cga --list a.csv", "a.csv"),
    ("parcels map.json a.obj --town a.obj", "a.obj"),
    ("sheet map.json a.svg a.svg", "a.svg"),
    ("sheet map.json a.cga x.svg --ground map.json", "map.json"),
    ("sheet map.json a.cga x.svg --block a.csv --table a.csv", "a.csv"),
    ("globe a.city.json ground.json a.city.json", "a.city.json"),
    ("globe a.cga ground.json ground.json", "ground.json"),
    ("sweep a.svg storey=1 --sheet a.svg", "a.svg"),
    ("watch a.csv a.csv", "a.csv"),
]
TWICE = [  # a call that names one file for two that are written
    "port r.cga x.cga --colours x.cga",
    "port r.cga x.json",
    "parcels map.json a.cga --ground x.json --list x.csv --town ./x.obj --ground x.json",
    "sheet map.json a.cga x.svg --list x.csv --table ./x.csv",
    "watch a.cga x.csv 'folder/../x.csv --by symbol'",
]


class Files(unittest.TestCase):
    def setUp(self):
        held = tempfile.TemporaryDirectory()
        self.addCleanup(held.cleanup)
        self.folder = Path(held.name)
        for name, data in {**FILES, "b.mtl": b"{}"}.items():
            (self.folder / name).write_bytes(data)
        (self.folder / "folder").mkdir()
        os.symlink("a.html", self.folder / "symbolic.html")
        os.link(self.folder / "a.html", self.folder / "hard.html")
        self.held = self.seen()

    def seen(self):
        return {path.name: path.read_bytes() for path in sorted(self.folder.iterdir()) if path.is_file()}

    def refused(self, use, part, **variables):
        import shlex

        tool, *words = shlex.split(use)
        with self.subTest(use), patch.dict(os.environ, variables):
            status, out, said = called(tool, *words, folder=self.folder)
            self.assertEqual((status, out), (2, ""), said)
            self.assertIn(part, said.splitlines()[-1])
            self.assertEqual(self.seen(), self.held)

    def test_what_is_read_is_not_written_over(self):
        for use, path in OVER:
            self.refused(use, f"{path} would be overwritten")

    def test_a_texture_of_the_colours_is_not_written_over(self):
        self.refused("picture a.obj a.png", "a.png would be overwritten", CGA_COLOURS="own.json")

    def test_two_outputs_have_two_files(self):
        for use in TWICE:
            if "--town" not in use:
                self.refused(use, "is named for two files that are written: give each of them its own name")

    def test_a_file_of_colours_that_is_not_there_is_told_with_its_variable(self):
        for use in ("view a.obj x.html", "merge a.obj x.obj", "glb a.obj x.glb"):
            self.refused(use, "CGA_COLOURS names nofile.json, and no such file is there", CGA_COLOURS="nofile.json")

    def test_files_are_looked_at_before_a_program_is_built(self):
        """Nothing asks for a program, whatever is wrong with a file or a word."""
        with patch("cga_city_lib.door.ready", side_effect=AssertionError), patch(
            "cga_city_lib.program.build", side_effect=AssertionError
        ):
            for use, part in (
                ("view a.cga no/x.html", "there is no folder no"),
                ("view a.cga x.pdf", "has to end in"),
                ("view a.cga x.html --ground nofile", "nofile: no such file is there"),
                ("picture a.cga no/x.png", "there is no folder no"),
                ("picture a.cga x.png sideways", "sideways is neither a view"),
                ("glb a.cga x.gltf", "has to end in .glb"),
                ("places a.cga x.txt", "has to end in .csv or .json"),
                ("usda a.cga no/x.usda", "there is no folder no"),
                ("merge a.cga no/x.obj", "there is no folder no"),
                ("plan a.cga --dxf no/x.dxf", "there is no folder no"),
                ("sweep a.cga storey=1,2 --sheet no/x.svg", "there is no folder no"),
                ("table a.cga --parcels nofile", "nofile: no such file is there"),
                ("watch a.cga no/x.html", "there is no folder no"),
                ("watch a.cga 'x.svg --plam 3'", "`--plam` is none of its words"),
                ("watch nofile x.html", "nofile: no such file is there"),
            ):
                self.refused(use, part)


if __name__ == "__main__":
    unittest.main()
