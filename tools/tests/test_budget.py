"""What is told of a town that is too large. A stand-in for the program counts a hundred shapes for each lot, and takes 250."""
import sys
import unittest
from pathlib import Path

sys.path.insert(0, str(Path(__file__).resolve().parent.parent))

from cga_city_lib.replies import is_refused  # noqa: E402
from cga_city_lib.report import Report  # noqa: E402
from cga_city_lib.script import commands  # noqa: E402

RULES = ["rules", "1: a -> NIL", "end"]


def ask(lines):
    """The replies to lines, where each lot has a hundred shapes, and ten thousand if it is called `endless`."""
    lots, told = [], []
    for command in commands(lines):
        inside = [line.split()[1] for line in lines[command.first : command.last] if line.startswith("lot")]
        new = list(lots)
        if command.words[:1] == ["lot"]:
            new.append(command.words[1])
        elif command.words[:1] == ["unlot"]:
            new.remove(command.words[1])
        elif command.words == ["city"]:
            new = inside
        is_large = sum(10000 if name == "endless" else 100 for name in new) > 250
        shapes = 100 * len(lots)
        lots = lots if is_large else new
        told.append(["# refused OverBudget"] if is_large else ["# ok"])
        if command.words == ["stats"]:
            told[-1] = [f"# stats lots {len(lots)} shapes {shapes} instances 0 faults 0 expanded 0"]
    return told


def lot(name):
    return f"lot {name} 1 0 0 1 1 a"


class Budget(unittest.TestCase):
    def told(self, *lines):
        lines = [*lines]
        report = Report("t.cga", lines, commands(lines), ask(lines), ask=ask)
        return [line.strip() for line in report.lines_for([])]

    def test_a_lot(self):
        told = self.told(*RULES, lot("p"), lot("q"), lot("r"), lot("s"))
        self.assertIn("the first 2 lots have 200 shapes, and lot `r` is the first that passes it", told[2])
        self.assertIn("a further refusal follows from it, in line 7", told)

    def test_a_block(self):
        told = self.told("version 2", "city", *RULES[1:2], lot("p"), lot("q"), lot("r"), "end")
        self.assertIn("the first 2 lots have 200 shapes, and lot `r` is the first that passes it", told[2])

    def test_a_rule_without_an_end(self):
        told = self.told(*RULES, lot("endless"))
        self.assertIn("lot `endless` alone passes it: a rule of its shapes goes on without end", told[2])

    def test_too_many_lots(self):
        lines = ["version 2", "city", "1: a -> NIL", *(lot(f"l{k}") for k in range(4097)), "end"]
        replies = [["# ok"], ["# refused TooManyLots"]]
        told = "\n".join(Report("t.cga", lines, commands(lines), replies, ask=lambda _: []).lines_for([]))
        self.assertIn("here are 4,097 lots; tools/districts cuts a region into jobs", told)

    def test_the_stand_in(self):
        self.assertTrue(is_refused(ask([*RULES, lot("endless")])[-1]))


if __name__ == "__main__":
    unittest.main()
