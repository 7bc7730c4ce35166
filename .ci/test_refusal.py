#!/usr/bin/env python3
"""What counts as a refusal of a planted bug, by what the prover says."""
import unittest
from pathlib import Path
from typing import Set

from bugs import Bug, cycle_of
from refusal import why_not

LINES = {
    "open goal": "note: src/name.rt:74:1: it is not proved that what the function ensures holds when it returns (`returns`)",
    "answer": "./proofs/name/begins/Answers.antt:6:13: error: `returns`: the two types first differ where one has `49`",
    "page of another": "./proofs/Padding.antt:6:13: error: `padded`: the two types first differ where one has `49`",
    "name gone": "./proofs/name/begins/Answers.antt:6:13: error: `returns`: `c.loop-y` has no field `rest`",
    "clause": "src/name.rt:70:15: error: `nosuch` is not in scope",
    "text": "src/name.rt:74:25: error[unexpected-token]: expected expression, found `%`",
    "not proved": "fn cga_word::name::begins: not proved",
    "no proof": "fn cga_word::name::begins: no proof: expected answers in ./proofs; `search` did not prove `returns`",
    "no page": "fn cga_word::name::begins: no proof: expected ./proofs/name/begins/Invariants.antt",
    "untold": "fn cga_word::name::begins: could not tell",
    "invariant": "./proofs/name/begins/Invariants.antt:6:13: error: `decreases`: this has another type",
    "one of its cycle": "fn cga_word::name::continues: not proved",
    "caller": "fn cga_word::name::is_name: not proved",
    "proved": "fn cga_word::name::begins: proved",
    "end": "only=1 proved=0",
    "proved end": "only=1 proved=1",
}


def judged(*names: str) -> str:
    said = "\n".join([*(LINES[name] for name in names), ""])
    return why_not(said, "cga_word", "name::begins", {"name::begins", "name::continues"})


class Refusals(unittest.TestCase):
    def test_refused(self) -> None:
        for names in (
            ("open goal", "no proof", "end"),
            ("no proof", "end"),
            ("answer", "not proved", "end"),
            ("open goal", "not proved", "one of its cycle", "end"),
        ):
            with self.subTest(names):
                self.assertEqual(judged(*names), "")

    def test_not_refused(self) -> None:
        for names, why in (
            (("proved", "proved end"), "NOT REFUSED"),
            (("text",), "the prover wasn't reached"),
            (("clause", "not proved", "end"), "what the edit took away"),
            (("name gone", "not proved", "end"), "what the edit took away"),
            (("name gone", "open goal", "not proved", "end"), "what the edit took away"),
            (("open goal", "caller", "end"), "refused by cga_word::name::is_name, and not by cga_word::name::begins"),
            (("open goal", "caller", "not proved", "end"), "and not by cga_word::name::begins alone"),
            (("open goal", "one of its cycle", "end"), "and not by cga_word::name::begins alone"),
            (("no page", "end"), "no goal is told to be open"),
            (("page of another", "not proved", "end"), "no goal is told to be open"),
            (("invariant", "not proved", "end"), "no goal is told to be open"),
            (("untold", "end"), "could not tell"),
            (("open goal", "not proved"), "came to no end"),
        ):
            with self.subTest(names):
                self.assertIn(why, judged(*names))


class Cycles(unittest.TestCase):
    TEXT = """#[cycle(walk)]
// a comment
#[tactic(auto)]
pub(crate) fn one() {}

#[cycle(walk)]
fn two() {}

#[cycle(other)]
fn three() {}

fn four() {}
"""

    def cycle(self, function: str) -> Set[str]:
        return cycle_of(Bug(Path("cga_word"), Path("a.edit"), function), {"src/walk.rt": self.TEXT})

    def test_cycle(self) -> None:
        self.assertEqual(self.cycle("walk::one"), {"walk::one", "walk::two"})
        self.assertEqual(self.cycle("walk::three"), {"walk::three"})
        self.assertEqual(self.cycle("walk::four"), {"walk::four"})


if __name__ == "__main__":
    unittest.main()
