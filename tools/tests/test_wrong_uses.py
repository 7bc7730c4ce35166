"""Wrong uses of the tools: each says what was given and what to do, with its exit status and without a trace of Python."""
import os
import sys
import tempfile
import unittest
from pathlib import Path

TESTS = Path(__file__).resolve().parent
TOP = TESTS.parent.parent
sys.path[:0] = [str(TESTS), str(TESTS.parent)]

from in_process import called  # noqa: E402

FILES = {
    "v.obj": b"# cga_city obj\no a\ng wall\nv 0 0 0\nv 1 0 0\nv 0 1 0\nf 1 2 3\n",
    "x.bin": bytes(range(128, 200)) + b"\0",
    "bad.json": b"{",
    "list.json": b"[]",
    "empty.cga": b"",
    "rules.cga": b"1: a -> NIL\n",
    "words.cga": "rules\n".encode("utf-16"),
    "page.html": b"<html>",
    "replies.txt": b"# ok\n# ok\n",
    "remarks.cga": b"# nothing\n",
    "pic.cga": b"# nothing\n",
    "script.cga": b"rules\n1: a -> NIL\nend\n",
    "dot.png": b"\x89PNG\r\n\x1a\n\0",
    "map.json": b'{"type": "FeatureCollection", "features": []}\n',
}
USES = [  # the words, the status, and a part of what is said
    ("picture v.obj", 2, "PICTURE is missing: tools/picture [words] TOWN PICTURE.png"),
    ("picture v.obj x.jpg", 2, "has to end in .png"),
    ("picture v.obj x.png sideways", 2, "sideways is neither a view (bird"),
    ("picture v.obj x.png bird top", 2, "one view and one size"),
    ("picture v.obj x.png 10x", 2, "10x is neither a view"),
    ("picture nofile x.png", 2, "nofile: no such file is there: look at its name"),
    ("picture x.bin x.png", 1, "x.bin is a binary file"),
    ("picture v.obj no/x.png 64x48", 2, "no/x.png: there is no folder no: make it"),
    ("picture v.obj folder.png 64x48", 2, "folder.png: that is a folder: name a file"),
    ("preview", 2, "SCRIPT is missing: tools/"),
    ("preview nofile", 2, "nofile: no such file is there: look at its name"),
    ("preview folder", 2, "folder/tiles/tileset.json: there is no folder folder/tiles"),
    ("preview --port 99999 rules.cga", 2, "`99999` isn't a whole number from 0 to 65,535"),
    ("plan v.obj --section 0,0,0,0", 2, "`0,0,0,0` is a line of no length"),
    ("plan v.obj --section a", 2, "isn't X,Z,X,Z, such as 0,4,20,4"),
    ("plan v.obj --plan x", 2, "`x` isn't a number from -1,000,000,000 to"),
    ("plan v.obj --elevation up", 2, "--elevation takes front, right, back or left, and not `up`;"),
    ("plan v.obj --plan 1 --section 0,0,1,1", 2, "--section doesn't go with --plan: say one of them;"),
    ("merge", 2, "TOWN is missing: tools/merge"),
    ("merge --offset 1 2 v.obj", 2, "`v.obj` isn't a number: --offset takes three"),
    ("merge --offset 1 2", 2, "--offset takes 3 values, and fewer are given: --offset X Y Z;"),
    ("merge --metres 0 v.obj", 1, "--metres has to be above 0"),
    ("merge --metres x v.obj", 2, "`x` isn't a number"),
    ("merge --colours x.bin v.obj", 1, "x.bin isn't text in UTF-8"),
    ("merge --colours bad.json v.obj", 1, "bad.json is no JSON"),
    ("merge --colours list.json v.obj", 1, "an object of colours by words"),
    ("merge --colours nofile v.obj", 2, "nofile: no such file is there: look at its name"),
    ("merge v.obj v.obj", 2, "v.obj would be overwritten: name another file\n"),
    ("lint", 2, "SCRIPT is missing: tools/"),
    ("lint nofile", 2, "nofile: no such file is there: look at its name"),
    ("lint folder", 2, "folder: that is a folder: name a file"),
    ("lint x.bin", 2, "is a binary file: lint takes a script"),
    ("lint words.cga", 2, "is text in UTF-16: lint takes a script"),
    ("lint v.obj", 2, "is an OBJ text: lint takes a script"),
    ("lint --program", 2, "--program takes a value, and none is given: --program PATH;"),
    ("lint --program nofile rules.cga", 2, "--program: `nofile` isn't there: name a program, such as ./cga_city;"),
    ("lint --program false rules.cga", 3, "the program ended with status 1"),
    ("lint rules.cga v.obj", 2, "`v.obj` is one word too many: tools/lint [--program PATH] SCRIPT;"),
    ("table x.bin", 1, "is a binary file: give a script, or the OBJ text"),
    ("table empty.cga", 1, "is empty: give a script"),
    ("table page.html", 1, "is HTML, SVG or XML"),
    ("table rules.cga", 1, "and a line `end` behind them\n"),
    ("table replies.txt", 1, "give the script itself, or end it by a line `print`\n"),
    ("table remarks.cga", 1, "comments alone"),
    ("table --floor", 2, "--floor takes a value, and none is given: --floor SYMBOL;"),
    ("table v.obj --set storey=3", 1, "--set goes with a script"),
    ("table v.obj --set storey", 2, "NAME=NUMBER, such as storey=3"),
    ("view v.obj", 2, "PAGE is missing: tools/view"),
    ("view v.obj folder", 2, "folder: that is a folder: name a file"),
    ("view v.obj no/x.html", 2, "no/x.html: there is no folder no: make it"),
    ("places v.obj", 2, "PLACES.csv is missing"),
    ("places v.obj x.txt", 2, "has to end in .csv or .json"),
    ("parcels bad.json rules.cga", 1, "rules stand in a block: write a line `rules` before this one"),
    ("parcels bad.json", 2, "RULES is missing"),
    ("diff v.obj", 2, "NEW is missing"),
    ("diff v.obj nofile", 2, "nofile: no such file is there: look at its name"),
    ("districts", 2, "WORD is missing: tools/districts cut"),
    ("districts what", 2, "WORD is cut, check, join, tile, tiles, status, todo or tidy, and not `what`;"),
    ("districts check folder", 1, "no region that was cut"),
    ("define nofile", 2, "nofile: no such file is there: look at its name"),
    ("format", 2, "SCRIPT is missing: tools/"),
    ("port nofile", 2, "nofile: no such file is there: look at its name"),
    ("port empty.cga", 1, "empty.cga is empty: give a file of CityEngine's rules, such as"),
    ("port rules.cga", 1, "rules.cga has rules without a block"),
    ("port script.cga", 1, "script.cga is a script already, with no rule to be ported: tools/lint reads it"),
    ("port dot.png", 1, "dot.png is a PNG picture: give a file of CityEngine's rules"),
    ("parcels script.cga map.json", 1, "the map's file is named first, then that of the rules"),
    ("glb v.obj", 2, "TOWN.glb is missing"),
    ("glb v.obj folder", 2, "folder: that is a folder: name a file"),
    ("glb --instance wal v.obj x.glb", 1, "symbols that draw are wall"),
    ("glb --mesh wall=no.obj v.obj x.glb", 2, "no.obj: no such file is there: look at its name"),
    ("glb --gpu-instancing v.obj x.glb", 1, "say --mesh, --instance or --instances as well"),
    ("usda v.obj", 2, "TOWN.usda is missing"),
    ("usda --mesh wal=v.obj v.obj x.usda", 1, "symbols that draw are wall"),
    ("view --mesh v.obj v.obj x.html", 2, "isn't SYMBOL=FILE, such as window=window.glb"),
    ("preview --mesh wall=no.glb rules.cga", 2, "no.glb: no such file is there: look at its name"),
    ("glb --mesh wall=pic.cga v.obj x.glb", 2, "`pic.cga` is no mesh: a mesh is a file that ends in .obj or .glb"),
    ("glb v.obj x.gltf", 2, "x.gltf has to end in .glb\n"),
    ("merge v.obj x.txt", 2, "x.txt has to end in .obj\n"),
    ("view v.obj x.pdf", 2, "x.pdf has to end in .html or .htm\n"),
    ("plan v.obj --dxf x.svg", 2, "x.svg has to end in .dxf\n"),
    ("table v.obj --parcels nofile", 2, "nofile: no such file is there: look at its name"),
    ("table v.obj --by storey", 2, "--by takes lot, symbol or both, and not `storey`; "),
    ("table v.obj --limit ten", 2, "--limit: `ten` is neither a height, such as 11, nor PROPERTY=VALUE:HEIGHT"),
    ("table v.obj --floor wall=x", 2, "--floor: `x` isn't a number such as 3"),
    ("table v.obj --set storey=99999999999999999999", 2, "is out of range: a script's numbers have 18 digits at most"),
    ("table v.obj --plam 3", 2, "`--plam` is none of its words"),
    ("table v.obj --decimal 3", 2, "`--decimal` is none of its words (perhaps --decimals is meant);"),
    ("plan v.obj --names=3", 2, "--names takes no value, and one stands behind it;"),
    ("plan v.obj --wall wall", 2, "--wall: `wall` isn't SYMBOL=LENGTH, such as wall=0.3"),
    ("table rules.cga --program folder", 2, "--program: `folder` is a folder: name a program"),
    ("parcels list.json rules.cga --origin 3", 2, "--origin: `3` isn't X,Y, such as 8.54,47.37: a longitude"),
    ("parcels list.json rules.cga --default x", 2, "--default: `x` isn't NAME=NUMBER, such as floors=3;"),
    ("parcels list.json rules.cga --units miles", 2, "--units takes metres, feet, us-feet or degrees, and not `miles`"),
    ("sheet list.json rules.cga x.svg --limit zone=W2", 2, "--limit: `zone=W2` isn't WORD=VALUE:HEIGHT"),
    ("sheet list.json rules.cga x.pdf", 2, "x.pdf has to end in .svg\n"),
    ("sheet list.json rules.cga x.svg --block nofile", 2, "nofile: no such file is there: look at its name"),
    ("sheet list.json rules.cga x.svg --paper A2", 2, "--paper takes A3 or A1, and not `A2`;"),
    ("table v.obj --title", 2, "`--title` is none of its words"),
    ("table v\udcffb", 2, "v<FF>b: no such file is there"),
]


class Uses(unittest.TestCase):
    def test_each(self):
        with tempfile.TemporaryDirectory() as folder:
            for name, data in FILES.items():
                Path(folder, name).write_bytes(data)
            for name in ("folder", "folder.png"):
                Path(folder, name).mkdir()
            kept = sorted(os.listdir(folder))
            for use, status, part in USES:
                tool, *words = use.split()
                with self.subTest(use):
                    ended, out, said = called(tool, *words, folder=folder)
                    self.assertEqual((ended, out, said.count("\n")), (status, "", 1), said)
                    self.assertIn(part, said)
                    self.assertTrue(said.startswith(Path(tool).name + ": "), said)
            self.assertEqual(sorted(os.listdir(folder)), kept, "nothing is left")


if __name__ == "__main__":
    unittest.main()
