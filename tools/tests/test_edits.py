"""What a save is sent as, and that it leads to the town of a run from nothing."""
import random
import sys
import unittest
from collections import Counter
from pathlib import Path

TESTS = Path(__file__).resolve().parent
sys.path.insert(0, str(TESTS.parent))

from cga_city_lib.edits import edits  # noqa: E402
from cga_city_lib.live import Live  # noqa: E402
from cga_city_lib.live_town import LiveTown  # noqa: E402
from cga_city_lib.script import commands  # noqa: E402
from cga_city_lib.shown import Shown  # noqa: E402
from cga_city_lib.plain_script import sources_of  # noqa: E402

SCRIPT = [
    "rules",
    "attr h = 3",
    "PRIORITY 1:",
    '1: house -> S(1r, h, 1r) I("cube")',
    "PRIORITY 2:",
    '2: shed -> I("gable")',
    '3: shed -> I("hip")',
    "end",
    "lot a 1 0 0 10 8 house",
    "lot b 2 20 0 10 8 shed",
]


def changed(*changes):
    """The script with lines replaced, each by a list of lines."""
    lines = [[line] for line in SCRIPT]
    for at, new in changes:
        lines[at] = new
    return [line for part in lines for line in part]


class Edits(unittest.TestCase):
    def sent(self, new, old=SCRIPT):
        """The lines of each edit from one script to another, as one text."""
        there = sources_of(old, commands(old))
        found = edits(there, sources_of(new, commands(new)), new, commands(new))
        return None if found is None else ["\n".join(edit.lines) for edit in found]

    def test_nothing_is_sent_for_comments_and_blanks(self):
        self.assertEqual(
            self.sent(changed((0, ["# a town", "rules"]), (3, ['1: house  ->  S(1r, h, 1r) I("cube")  # tall']))), []
        )

    def test_a_rule(self):
        new = '1: house -> S(1r, 2 * h, 1r) I("cube")'
        self.assertEqual(self.sent(changed((3, [new]))), ["put 1 " + new])
        self.assertEqual(self.sent(changed((6, []))), ["drop 3"])
        self.assertEqual(self.sent(changed((6, [SCRIPT[6], "4: tree -> NIL"]))), ["put 2 4: tree -> NIL"])

    def test_a_priority(self):
        self.assertEqual(self.sent(changed((4, ["PRIORITY 7:"]))), ["priority shed 7"])

    def test_an_attribute(self):
        self.assertEqual(self.sent(changed((1, ["attr h = 7/2"]))), ["attr h = 7/2"])
        self.assertEqual(self.sent([*SCRIPT, "attr h = 5"]), ["attr h = 5"])
        self.assertEqual(self.sent(SCRIPT, [*SCRIPT, "attr h = 5"]), ["attr h = 3"])

    def test_lots(self):
        self.assertEqual(self.sent(changed((8, ["lot a 1 0 0 12 8 house"]))), ["lot a 1 0 0 12 8 house"])
        self.assertEqual(self.sent(changed((8, []))), ["unlot a"])
        self.assertEqual(self.sent([*SCRIPT, "lot c 1 0 0 1 1 shed"]), ["lot c 1 0 0 1 1 shed"])

    def test_many_rules_are_sent_as_the_block(self):
        new = changed((3, ['1: house -> I("hip")']), (5, ['2: shed -> I("shed")']))
        self.assertEqual(self.sent(new), ["\n".join(new[:8])])
        new = changed((1, ["attr h = 3", "attr w = 1"]))
        self.assertEqual(self.sent(new), ["\n".join(new[:9])])

    def test_lots_in_another_order(self):
        self.assertIsNone(self.sent(changed((8, ["lot c 1 0 0 1 1 shed", SCRIPT[8]]))))
        new = ["version 2", *changed((8, ["lot c 1 0 0 1 1 shed", SCRIPT[8]]))]
        self.assertEqual(self.sent(new, ["version 2", *SCRIPT]), ["\n".join(["city", *new[2:8], *new[9:], "end"])])

    def test_what_is_not_plain_is_not_known(self):
        for line in ("drop 1", "rules", "lot a 1 0 0 1 1 house", "attr w = 1", "undo", "what"):
            with self.subTest(line):
                self.assertIsNone(sources_of([*SCRIPT, line], commands([*SCRIPT, line])))


class Files:
    """A file that is changed at random, and its town."""

    def __init__(self, seed, is_second):
        self.draw, self.head, self.attribute = random.Random(seed), ["version 2"] * is_second, "3"
        self.rules = {
            1: (1, 'house -> S(1r, h, 1r) I("cube")'),
            2: (2, 'shed -> I("gable")'),
            3: (2, 'shed -> I("hip")'),
        }
        self.lots = {name: self.lot(name).replace(" 0 8 ", " 9 8 ") for name in "abc"}

    def lot(self, name):
        draw = self.draw
        return f"lot {name} {draw.randrange(5)} {draw.randrange(-9, 99)} 0 {draw.choice((0, 8, 9, 10, 11, 12))} 8 {draw.choice(('house', 'shed'))}"

    def change(self):
        draw, kind = self.draw, self.draw.randrange(6)
        if kind == 0:
            self.attribute = draw.choice(("2", "3", "7/2"))
        elif kind == 1:
            self.rules[draw.randrange(1, 6)] = (
                draw.choice((1, 2)),
                draw.choice(('house -> S(1r, h, 1r) I("cube")', 'shed -> I("hip")', "shed -> wrong")),
            )
        elif kind == 2:
            self.rules.pop(draw.randrange(2, 6), None)
        elif kind == 3:
            self.lots = dict(draw.sample(list(self.lots.items()), len(self.lots)))
        elif kind == 4:
            self.lots.pop(draw.choice("abcde"), None)
        else:
            name = draw.choice("abcde")
            self.lots[name] = self.lot(name)

    def lines(self):
        rules = [
            line
            for priority in (1, 2)
            for line in [
                f"PRIORITY {priority}:",
                *(f"{number}: {text}" for number, (own, text) in sorted(self.rules.items()) if own == priority),
            ]
        ]
        return [*self.head, "rules", f"attr h = {self.attribute}", *rules, "end", *self.lots.values()]


def fresh(program, lines):
    """What a run from nothing draws, and whether nothing is refused in it."""
    drawn = Counter()

    def take(gone, come):
        drawn.subtract(gone)
        drawn.update(come)

    live = Live(program, take)
    replies = live.ask(lines + ["stats"], len(commands(lines)) + 1)
    live.close()
    return +drawn, all(reply[0] == "# ok" for reply in replies[:-1])


def check(case, program, seed, saves):
    """After each save that nothing is refused in, what is shown is what a run from nothing draws; others are taken back."""
    file, shown = Files(seed, seed % 2), Shown("a")
    town, compared, well = LiveTown(program, shown), 0, None
    for _ in range(saves):
        lines = file.lines()
        drawn, is_well = fresh(program, lines)
        answers, _ = town.show(lines, commands(lines))
        town.publish()
        case.assertEqual(all(answer == ["# ok"] for answer in answers), is_well, lines)
        if is_well:
            case.assertEqual(shown.drawn.counts(), drawn, lines)
            compared, well = compared + 1, (file.attribute, dict(file.rules), dict(file.lots))
        elif well:
            file.attribute, file.rules, file.lots = well[0], dict(well[1]), dict(well[2])
        for _ in range(file.draw.choice((1, 1, 2, 4))):
            file.change()
    town.close()
    return compared


class Towns(unittest.TestCase):
    def test_a_program_that_ended_by_itself_is_begun_anew(self):
        shown = Shown("a")
        town = LiveTown(str(TESTS / "live_stand_in"), shown)
        self.addCleanup(town.close)
        town.show(SCRIPT, commands(SCRIPT))
        town.publish()
        town.live.stop()
        town.live.process.wait()
        new = changed((8, []))
        self.assertEqual(town.show(new, commands(new))[0], [["# ok"]] * 2)
        town.publish()
        self.assertEqual(
            sorted(shown.drawn.held), [b"b shed gable 20 0 0 +X+Y+Z 10 1 8", b"b shed hip 20 0 0 +X+Y+Z 10 1 8"]
        )

    def test_what_is_shown_is_what_a_run_from_nothing_draws(self):
        self.assertGreater(check(self, str(TESTS / "live_stand_in"), 1, 16), 6)


if __name__ == "__main__":
    unittest.main()
