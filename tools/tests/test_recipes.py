"""What docs/RECIPES.md says of a table of lots and of ports, run as a reader would."""
import re
import unittest
from pathlib import Path

from in_process import called

TOP = Path(__file__).resolve().parent.parent.parent
RECIPES = (TOP / "docs" / "RECIPES.md").read_text(encoding="utf-8")
LOTS = [  # the lots of the table, each with its parcel's first symbol
    "lot Baker_old 1 0 0 16 24 house(2)",
    "lot p12_Mill_Lane 2 16 0 18.5 24 house(3)",
    "lot bank 3 40 0 30 24 block(5)",
]


class Table(unittest.TestCase):
    def test_lots_from_a_table(self) -> None:
        shown = re.search(r"^```\n(name,.*?)^```", RECIPES, re.MULTILINE | re.DOTALL).group(1)
        self.assertEqual((TOP / "examples" / "maps" / "lots.csv").read_text(encoding="utf-8"), shown)
        status, out, _ = called("parcels", "examples/maps/lots.csv", "examples/maps/street.cga", folder=TOP)
        roots = dict(re.findall(r"^\d+: (parcel_\d+) -> (.*)$", out, re.MULTILINE))
        lots = re.findall(r"^(lot .*) (parcel_\d+)  #", out, re.MULTILINE)
        self.assertEqual((status, [f"{lot} {roots[parcel]}" for lot, parcel in lots]), (0, LOTS))


class Ports(unittest.TestCase):
    def test_the_numbers_of_each_port(self) -> None:
        rows = re.findall(r"^\| `(\w+\.cga)`: [^|]*\| (\d+) \| (\d+) \|", RECIPES, re.MULTILINE)
        self.assertEqual(len(rows), 3)
        for name, there, here in rows:
            said = called("port", "--unchecked", TOP / "examples" / "cga" / name)[2]
            self.assertIn(f"port: {here} rules of {there}; ", said)


if __name__ == "__main__":
    unittest.main()
