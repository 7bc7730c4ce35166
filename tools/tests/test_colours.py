"""The colours of symbols: by a part of a word, by a file of one's own, and as the documents list them."""
import json
import os
import re
import sys
import tempfile
import unittest
from pathlib import Path
from unittest import mock

TOP = Path(__file__).resolve().parent.parent.parent
sys.path.insert(0, str(TOP / "tools"))

from cga_city_lib.call import Refused  # noqa: E402
from cga_city_lib.colours import KNOWN, VARIABLE, colour_by_bytes, colour_of, look_of  # noqa: E402

DRAWN_BY = """flatroof roofhip roofside hiproof road roads plaza yard backyard canopy dormer fountain mast pillar sill stack step
tile topledge walls wallpiece windowpane glassFront doorframe courtyard sidewalk pavement grass hedge rooftop driveway""".split()


class Known(unittest.TestCase):
    def test_words_that_people_draw_by_have_a_colour(self):
        self.assertEqual([word for word in DRAWN_BY if colour_of(word) == colour_by_bytes(word)], [])

    def test_a_part_of_a_word(self):
        for name, word in (
            ("roofhip", "roof"),
            ("sidewall", "wall"),
            ("backyard", "yard"),
            ("streetdoor", "door"),
            ("wallroof", "roof"),
        ):
            with self.subTest(name):
                self.assertEqual(colour_of(name), colour_of(word))

    def test_the_last_word_counts(self):
        self.assertEqual(colour_of("roof_wall"), colour_of("wall"))
        self.assertEqual(colour_of("roof_side"), colour_of("roof"))
        self.assertEqual(colour_of("window2_pane"), colour_of("pane"))

    def test_short_words_are_no_parts(self):
        self.assertEqual(colour_of("ship"), colour_by_bytes("ship"))

    def test_names_are_data(self):
        for name in ("", "a b", "</script>", "$(x)", '"', "é", "\udcff"):
            self.assertEqual(len(colour_of(name)), 3)

    def test_the_document_lists_them(self):
        rows = re.findall(
            r"^\| `#([0-9a-f]{6})` \| (.*) \|$", (TOP / "docs/ENGINES.md").read_text(encoding="utf-8"), re.MULTILINE
        )
        listed = {word: colour for colour, words in rows for word in re.findall("`([a-z]+)`", words)}
        told = json.loads(KNOWN.read_text(encoding="utf-8"))
        known = {word: entry if isinstance(entry, str) else entry["colour"] for word, entry in told.items()}
        self.assertEqual(listed, known)


class Own(unittest.TestCase):
    def setUp(self):
        folder = tempfile.TemporaryDirectory()
        self.addCleanup(folder.cleanup)
        self.folder = Path(folder.name)

    def look(self, told, symbol, name="own.json"):
        file = self.folder / name
        file.write_text(told if isinstance(told, str) else json.dumps(told), encoding="utf-8")
        with mock.patch.dict(os.environ, {VARIABLE: str(file)}):
            return look_of(symbol)

    def test_a_word_of_ones_own(self):
        told = {"roof": "#010203", "big wall": "040506", "x": "070809"}
        for number, (symbol, colour) in enumerate(
            (
                ("roof", (1, 2, 3)),
                ("flat_roofs", (1, 2, 3)),
                ("big wall", (4, 5, 6)),
                ("x", (7, 8, 9)),
                ("wall", colour_of("wall")),
            )
        ):
            self.assertEqual(self.look(told, symbol, f"{number}.json").colour, colour)

    def test_a_texture(self):
        look = self.look({"brick": {"texture": "brick.jpg", "size": [2.4, 1.2]}}, "brick_wall_brick")
        self.assertEqual(
            (look.colour, look.texture, look.size), ((255, 255, 255), self.folder / "brick.jpg", (2.4, 1.2))
        )

    def test_what_is_wrong_with_a_file_is_said(self):
        for number, (told, said) in enumerate(
            (
                ("{", "is no JSON"),
                ([], "object of colours"),
                ({"a": 1}, '"a" has a colour'),
                ({"a": "red"}, "six hexadecimal"),
                ({"a": {"texture": 1}}, "name of a picture"),
                ({"a": {"size": [0, 1]}}, "above 0"),
                ({"a": {"color": "000000"}}, "colour, texture and size"),
            )
        ):
            with self.subTest(told), self.assertRaisesRegex(Refused, said):
                self.look(told, "a", f"{number}.json")

    def test_a_file_that_is_not_there(self):
        with mock.patch.dict(os.environ, {VARIABLE: str(self.folder / "no.json")}), self.assertRaises(
            FileNotFoundError
        ):
            look_of("a")


if __name__ == "__main__":
    unittest.main()
