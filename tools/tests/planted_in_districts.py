#!/usr/bin/env python3
"""Plants bugs in copies of the tool that cuts regions, one at a time: a test that is named refuses each.

usage: tools/tests/planted_in_districts.py [WORD ..]      of the bugs whose names have one of these words
"""
import compileall
import importlib
import os
import py_compile
import shutil
import sys
import tempfile
import unittest
from pathlib import Path

# each try is a child of this process, and has them loaded
for name in "argparse decimal fractions hashlib json random runpy threading unittest.mock".split():
    importlib.import_module(name)

TOP = Path(__file__).resolve().parent.parent.parent
CUT, CHECKS, RINGS, DAMAGE, KEPT = (
    "test_districts.Cut.test_",
    "test_districts_checks.Checks.test_",
    "test_districts_rings.Rings.test_",
    "test_districts_damage.Damage.test_",
    "test_region.Agreement.test_",
)
CHANGES = "test_districts_changes.Changes.test_"

# its name, the file, what stands there, what is planted, and the test
BUGS = [
    (
        "floats as grounds",
        "exact.py",
        "numerator * (one // denominator)",
        "numerator / denominator * one",
        CUT + "grounds_are_compared_exactly",
    ),
    (
        "floats as boxes",
        "printed.py",
        "return one, list(zip(*columns))",
        "return 1, [tuple(n / one for n in box) for box in zip(*columns)]",
        CHECKS + "boxes_are_compared_exactly",
    ),
    (
        "boxes that share a face are apart",
        "apart.py",
        "one[0] > other[1] or other[0] > one[1]",
        "one[0] >= other[1] or other[0] >= one[1]",
        CHECKS + "boxes_that_share_a_face_touch",
    ),
    (
        "the sweep forgets too early",
        "apart.py",
        "boxes[other][end] >= low",
        "boxes[other][end] > low",
        CUT + "where_a_rule_asks_lots_that_touch_stand_in_one_job",
    ),
    (
        "a box across many strips is left out",
        "apart.py",
        "for at in wide:\n",
        "for at in []:\n",
        CUT + "which_boxes_touch_is_what_each_two_tell",
    ),
    (
        "names without the program",
        "plan.py",
        'begin = "\\0".join([program, *words, ""])',
        'begin = ""',
        CUT + "another_program_or_other_decimals_are_other_jobs",
    ),
    (
        "a late job writes to a new name",
        "engines.py",
        'mv "$part" "jobs/$name.out"',
        'for late in jobs/*.cga; do cp "$part" "${late%.cga}.out"; done',
        "test_districts_engines.Engines.test_a_region_that_is_cut_again_while_a_job_runs",
    ),
    (
        "half a file is whole",
        "printed.py",
        'words[:3] == ["#", "job", self.job.name]',
        'words[:2] == ["#", "job"]',
        CHECKS + "outputs_of_two_jobs_exchanged",
    ),
    (
        "a digest that isn't compared",
        "printed.py",
        "words[3] != sha256(memoryview(data)[:end]).hexdigest().encode()",
        "not words[3]",
        DAMAGE + "an_output_that_is_damaged_in_one_place_is_named_and_run_again",
    ),
    (
        "a town of another cut stays",
        "of_plan.py",
        "path.is_file() and not is_of(path, digest)",
        "False",
        DAMAGE + "a_town_of_another_cut_is_taken_away_whatever_the_clocks_say",
    ),
    (
        "boxes of other lots",
        "printed.py",
        "words[2::9] != self.plan.lots_of(self.job)",
        "not words[2::9]",
        CHECKS + "outputs_that_are_not_what_the_job_prints",
    ),
    (
        "other rules",
        "printed.py",
        'text.startswith("# ok\\n" + self.rules.grammar())',
        'text.startswith("# ok\\n")',
        CHECKS + "outputs_that_are_not_what_the_job_prints",
    ),
    (
        "faces that aren't moved",
        "towns.py",
        "return lines if by == 0 else",
        "return lines if True else",
        CUT + "what_is_joined_is_what_one_run_prints",
    ),
    (
        "boxes that touch are joined",
        "rounds.py",
        "    if not pairs:\n",
        "    if True:\n",
        CHECKS + "lots_whose_boxes_touch_are_put_together_and_stay_so",
    ),
    (
        "what was found is forgotten",
        "findings.py",
        "self.together, self.seen, self.rings = json.loads(self.path.read_bytes())",
        "pass",
        CHECKS + "lots_whose_boxes_touch_are_put_together_and_stay_so",
    ),
    (
        "a district past a run is cut",
        "deal.py",
        "len(largest) > MOST_LOTS",
        "False",
        CUT + "a_district_past_a_run_is_refused_by_name",
    ),
    (
        "neighbours aren't compared",
        "halo.py",
        "if digests[own + at] != self.digest[ring[at]]",
        "if False",
        RINGS + "a_row_in_which_each_depends_on_the_one_before_is_put_together",
    ),
    (
        "neighbours that are missing",
        "halo.py",
        "if neighbour not in rings[one]:",
        "if False:",
        RINGS + "a_lot_that_reaches_one_far_away_is_derived_with_it",
    ),
    (
        "faults of neighbours count",
        "printed.py",
        "if line.split()[2] in own]",
        "if own]",
        RINGS + "counts_and_faults_are_those_of_the_own_lots",
    ),
    (
        "a neighbour that was told otherwise isn't compared",
        "agreement.py",
        "(part.ring if own else part.ring & told)",
        "(set() if own else part.ring & told)",
        KEPT + "what_is_compared_behind_an_edit_is_all_that_may_differ",
    ),
    (
        "a lot that came from another part isn't compared",
        "agreement.py",
        "name in told or name not in was.own",
        "name in told",
        KEPT + "what_is_compared_behind_an_edit_is_all_that_may_differ",
    ),
    (
        "those that have a changed lot as a neighbour aren't compared",
        "agreement.py",
        "for holder in parts.holders.get(name, ()):",
        "for holder in ():",
        KEPT + "what_is_compared_behind_an_edit_is_all_that_may_differ",
    ),
    (
        "other steps are the same",
        "kept_parts.py",
        "name in self.ring and self.told[name].digest == other.told[name].digest",
        "name in self.ring",
        KEPT + "what_is_compared_behind_an_edit_is_all_that_may_differ",
    ),
    (
        "an edit that is taken back leaves its boxes",
        "kept_parts.py",
        "            for name in was.own & was.told.keys():\n",
        "            for name in ():\n",
        KEPT + "an_edit_that_is_taken_back_leaves_no_trace",
    ),
    (
        "a lot that comes into a square is dealt by itself",
        "changed_deal.py",
        "        if held:\n",
        "        if False:\n",
        CHANGES + "where_no_rule_asks",
    ),
    (
        "squares that become one stay",
        "changed_deal.py",
        "        if mixed:\n",
        "        if False:\n",
        CHANGES + "where_no_rule_asks",
    ),
    (
        "a lot that comes touches no other",
        "changed_deal.py",
        "self.expand(set().union(*(self.lots.near(lot, self.options.reach) for lot in self.lots.come)))",
        "pass",
        CHANGES + "where_a_rule_asks",
    ),
    (
        "rings near a change stay",
        "changed_deal.py",
        "if job.share or job.number in concerned else job",
        "if job.share else job",
        CHANGES + "with_rings",
    ),
    (
        "a damaged index is believed",
        "sealed.py",
        "if known == digest(data).encode()",
        "if True",
        CHANGES + "an_output_that_changed_is_read_again_and_a_damaged_record_is_not_believed",
    ),
    (
        "the script may be another than that of the index",
        "cut_index.py",
        "return index if index == now",
        "return index if True",
        CHANGES + "what_is_damaged_is_not_believed",
    ),
    (
        "an output that changed isn't read",
        "kept_checks.py",
        "(record.own, now) == (job.own, (record.size, record.time, record.end))",
        "True",
        CHANGES + "an_output_that_changed_is_read_again_and_a_damaged_record_is_not_believed",
    ),
    (
        "what changed touches no other job",
        "kept_checks.py",
        "angle == other and touch(",
        "False and touch(",
        CHANGES + "a_check_reads_what_changed_and_what_that_may_touch",
    ),
]


def copied(folder):
    """A copy of the tool and its tests; what was compiled of a file counts as long as the file is the same."""
    for part in ("cga_city_lib", "tests"):
        shutil.copytree(
            TOP / "tools" / part, folder / "tools" / part, ignore=shutil.ignore_patterns("__pycache__", "viewer")
        )
    shutil.copy(TOP / "tools" / "districts", folder / "tools")
    used = ["regions", "region_stand_in", "in_process", *{bug[-1].partition(".")[0] for bug in BUGS}]
    for path in [
        *(folder / "tools" / "cga_city_lib").glob("*.py"),
        *(folder / "tools" / "tests" / f"{name}.py" for name in used),
    ]:
        compileall.compile_file(path, quiet=2, invalidation_mode=py_compile.PycInvalidationMode.CHECKED_HASH)


def fails(folder, test):
    """Whether the test runs and fails, in a process of its own that has loaded nothing of the tool."""
    child = os.fork()
    if child == 0:
        status = 2
        try:
            status = tried(folder, test)
        finally:
            os._exit(status)
    return os.waitstatus_to_exitcode(os.waitpid(child, 0)[1]) == 1


def tried(folder, test):
    """1 where the test fails, and 0 where it passes or can't be loaded."""
    os.chdir(folder / "tools" / "tests")
    sys.path.insert(0, os.getcwd())
    sys.dont_write_bytecode, result = True, unittest.TestResult()
    unittest.defaultTestLoader.loadTestsFromName(test).run(result)
    told = "".join(text for _, text in result.failures + result.errors)
    return 1 if told and "ImportError" not in told else 0


def is_refused(folder, file, old, new, test):
    """Whether the test fails with the bug."""
    path = folder / "tools" / "cga_city_lib" / file
    text = path.read_text(encoding="utf-8")
    if text.count(old) != 1:
        sys.exit(f"`{old}` stands {text.count(old)} times in {file}")
    path.write_text(text.replace(old, new), encoding="utf-8")
    try:
        return fails(folder, test)
    finally:
        path.write_text(text, encoding="utf-8")


def main(words):
    chosen = [bug for bug in BUGS if not words or any(word in bug[0] for word in words)]
    with tempfile.TemporaryDirectory() as folder:
        copied(Path(folder))
        missed = [name for name, *bug in chosen if not is_refused(Path(folder), *bug)]
    for name in missed:
        print(f"not refused: {name}")
    print(f"{len(chosen) - len(missed)} of {len(chosen)} planted bugs are refused")
    return 1 if missed else 0


if __name__ == "__main__":
    sys.exit(main(sys.argv[1:]))
