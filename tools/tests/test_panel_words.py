"""Sliders, choices and groups, as a script's comments say them, and values that come back into the script."""
import sys
import unittest
from pathlib import Path

sys.path.insert(0, str(Path(__file__).resolve().parent.parent))

from cga_city_lib.panel_words import head_of, unread, with_values  # noqa: E402

SCRIPT = [
    "attr storey = 3  # of all",
    "# slider storey 2.4..4.5 step 0.1",
    "# choice bays 2 3 5/2",
    "# group Front: storey bays",
]


class PanelWords(unittest.TestCase):
    def test_what_is_said(self):
        told = head_of(SCRIPT)["panel"]
        self.assertEqual(told["shapes"]["storey"], {"low": "2.4", "high": "4.5", "step": "0.1"})
        self.assertEqual(told["shapes"]["bays"], {"choices": ["2", "3", "5/2"]})
        self.assertEqual(told["groups"], [["Front", ["storey", "bays"]]])
        self.assertEqual(list(unread(SCRIPT)), [])

    def test_what_cannot_be_read_is_told(self):
        for line in ("# slider h 4..2", "# slider h 1..2 step 0", "# slider h 1 2", "# choice h 2  3"):
            self.assertEqual([number for number, _ in unread(["stats", line])], [2], line)

    def test_a_value_comes_into_the_script(self):
        self.assertEqual(with_values(SCRIPT, {"storey": "4.5"}), ["attr storey = 4.5  # of all", *SCRIPT[1:]])
        self.assertEqual(with_values(["attr h=3", "attr h = 4/2"], {"h": "7"}), ["attr h=3", "attr h = 7"])
        self.assertEqual(with_values(SCRIPT, {"other": "1"}), SCRIPT)


if __name__ == "__main__":
    unittest.main()
