#!/usr/bin/env python3
"""What the gate compares with committed numbers: instructions of works, lines of wings, types of functions; and links."""
import ast
import os
import subprocess
import sys
import tempfile
import unittest
from pathlib import Path
from typing import Dict

import budget
import typed
import weight
import width

LIST = """# a comment
door   cga_main   100 40 60  1.5 -
door   cga_top    500 200 100  - -
text   cga_form   1000 0 0  2.0 1.0
"""
TEXT = "def f(a: int) -> int: ...\nclass C:\n    def g(self, *, b: int) -> int: ...\n    def h(self, c): ...\n"


class Budget(unittest.TestCase):
    def faults_at(self, times: float) -> int:
        stored = {told: 1_000 for told in budget.WORKS}
        return len(budget.faults({**stored, budget.WORKS[1]: int(1_000 * times)}, stored))

    def test_room(self) -> None:
        self.assertEqual([self.faults_at(times) for times in (0.5, 1, 1.15, 1.16, 7.7)], [0, 0, 0, 1, 1])

    def test_not_stored(self) -> None:
        took = {told: 1_000 for told in budget.WORKS}
        self.assertEqual(len(budget.faults(took, {})), len(budget.WORKS))

    def test_no_valgrind(self) -> None:
        with tempfile.TemporaryDirectory() as empty:
            command = [sys.executable, str(Path(budget.__file__)), "nowhere"]
            ran = subprocess.run(command, stdout=subprocess.PIPE, env={**os.environ, "PATH": empty})
        self.assertEqual(ran.returncode, 0)
        self.assertIn(b"valgrind isn't installed", ran.stdout)


class Lines(unittest.TestCase):
    def faults(self, more: int, text: str = LIST, **others: int) -> str:
        stored = weight.Stored(LIST)
        now: Dict[str, weight.Weight] = dict(stored.weights)
        now["cga_top"] = weight.Weight("door", [500 + more, 200, 100], "- -")
        now.update({name: weight.Weight("text", [lines, 0, 0], "- -") for name, lines in others.items()})
        return "\n".join(weight.faults(weight.Stored(text), now))

    def test_room(self) -> None:
        self.assertEqual(self.faults(30), "")
        self.assertIn("wing door grew by 31 lines to 1,031, 30 at most: + door 1: REASON", self.faults(31))
        self.assertEqual(self.faults(-900), "")

    def test_reason(self) -> None:
        self.assertEqual(self.faults(31, LIST + "+ door 1: a clause more\n"), "")
        self.assertIn("grew by 32", self.faults(32, LIST + "+ door 1: a clause more\n"))
        self.assertIn("grew by 31", self.faults(31, LIST + "+ text 9: another wing\n"))
        with self.assertRaises(SystemExit):
            weight.Stored(LIST + "+ door 1:\n")

    def test_new_crate(self) -> None:
        self.assertIn("cga_new is new", self.faults(0, cga_new=1))


class Types(unittest.TestCase):
    def test_each_function(self) -> None:
        found = [(it.name, typed.is_typed(it, is_method)) for it, is_method in typed.functions(ast.parse(TEXT))]
        self.assertEqual(found, [("f", True), ("g", True), ("h", False)])

    def test_list(self) -> None:
        lacking = [("old.py", ["1: f"]), ("new.py", ["2: g"]), ("whole.py", [])]
        self.assertEqual(len(typed.faults(["old.py"], lacking)), 1)


class Links(unittest.TestCase):
    def test_of_code(self) -> None:
        with tempfile.TemporaryDirectory() as folder:
            top = Path(folder)
            for name in ("crates/cga_a/src", "crates/cga_a/out", "docs"):
                (top / name).mkdir(parents=True)
            for name in (
                "crates/cga_a/src/lib.rt",
                "crates/cga_a/notes",
                "crates/cga_a/out/kept",
                "docs/Law.antt",
                "docs/page.md",
            ):
                (top / name).symlink_to("nowhere")
            (top / "docs/plain.rt").write_text("")
            found = sorted(fault.split(" ")[0] for fault in width.links(top))
        self.assertEqual(found, ["crates/cga_a/notes", "crates/cga_a/src/lib.rt", "docs/Law.antt"])


if __name__ == "__main__":
    unittest.main()
