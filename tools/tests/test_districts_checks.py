"""What a check refuses, what it puts together, and how rounds come to their end."""
import os
import resource
import unittest

from regions import RULES, STAND_IN, RegionTest, asking, chances, ended

from cga_city_lib.plan import digest

LOTS = [
    f"lot {name} {seed} {10 * x} 0 4 4 wall"
    for x, (name, seed) in enumerate([("a", 1), ("flat", 2), ("c", 0), ("d", 3)])
]
REGION = [*RULES, *LOTS]
# a reaches b, and d reaches e; b, c and d stand apart
REACHING = [
    f"lot {name} {seed} {x} 0 4 4 wall"
    for name, seed, x in (("a", 6, 0), ("b", 1, 10), ("c", 1, 20), ("d", 5, 30), ("e", 0, 36))
]


class Checks(RegionTest):
    def output(self, number=0):
        return self.jobs("out")[number]

    def assert_not_taken(self, told, path=None):
        """Neither a check nor a join takes the output, a status names it, and nothing is written."""
        for word in ("check", "join"):
            self.assert_refused(self.call(word, self.folder), told)
        status, said, _ = self.call("status", self.folder)
        self.assertEqual(status, 0)
        self.assertIn("1 refused", said)
        self.assertIn(told, said)
        self.assertEqual([name for name in ("town.obj", "counts") if (self.folder / name).exists()], [])

    def test_jobs_that_were_not_run_are_counted(self):
        self.cut(REGION, 1)
        self.assert_refused(self.call("check", self.folder), "4 jobs weren't run")
        self.run_jobs()
        gone = self.output(2)
        gone.unlink()
        self.assert_refused(self.call("join", self.folder), f"1 jobs weren't run, {gone.stem} the first: make -j 4 -C ")
        self.assertEqual(self.call("status", self.folder)[1], f"{self.folder}: 3 jobs run, 1 to run, 0 refused\n")
        self.assertEqual(self.todo(), [gone.stem])

    def test_outputs_that_are_not_what_the_job_prints(self):
        self.cut(REGION, 4096)
        self.run_jobs()
        path = self.output()
        whole = path.read_text()
        end = whole.split("\n")[-2] + "\n"
        for text, told in (
            ("", "its rules are others"),
            (whole[: whole.index("o flat")], "its end isn't that of this job"),
            (whole[:-1], "its end isn't"),
            (whole.replace(end, ""), "its end isn't"),
            (whole.replace(end, "# job 0\n"), "its end isn't"),
            (whole.replace(end, f"# job {path.stem}\n"), "its end isn't"),
            (whole.replace(end, end[:-65] + 64 * "0" + "\n"), "its end isn't"),
            (whole + "# ok\n", "its end isn't"),
            ("# refused BadLot a\n" + whole, "refused BadLot a: mend"),
            (whole.replace("1: wall", "2: wall"), "its rules are others"),
            (whole.replace("# faults 1", "# faults 2"), "its beginning isn't whole"),
            (whole.replace("# faults 1\n", ""), "its beginning isn't whole"),
            (whole.replace("faults 1 exp", "faults 2 exp"), "it has other faults than"),
            (whole.replace("stats lots 4", "stats lots 3"), "it has other lots"),
            (whole.replace("# hull c", "# hull x"), "boxes are of other lots"),
            (whole.replace("# hull c 20 0 0 24", "# hull c 20 0 0 19"), "ends before it begins"),
            (whole.replace("# hull c", "# hulls c"), "isn't one"),
            (whole.replace("# hull c 20", "# hull c 20/0"), "isn't of numbers"),
            (whole.replace("# hull c 20 ", "# hull c "), "isn't one"),
        ):
            with self.subTest(told):
                path.write_text(text)
                self.assert_not_taken(told)
        path.write_text(whole)
        self.assertEqual(self.call("check", self.folder)[0], 0)

    def test_the_lots_of_the_town_are_those_of_the_job(self):
        self.cut(REGION, 4096)
        self.run_jobs()
        path = self.output()
        lines = path.read_text().replace("o flat\n", "o a\n").split("\n")[:-2]
        path.write_bytes(ended(lines, path.stem, self.program_bytes()))
        status, _, told = self.call("join", self.folder, "--workers", "1")
        self.assertEqual(status, 1)
        self.assertIn("the lot `flat` isn't where it is to be", told)
        self.assertEqual(list(self.folder.glob("town*")) + list(self.folder.glob("*piece")), [])

    def test_outputs_of_two_jobs_exchanged(self):
        self.cut(REGION, 2)
        self.run_jobs()
        one, other = self.jobs("out")
        one.write_bytes(other.read_bytes())
        self.assert_not_taken(
            f"{one} isn't what its job prints, since its end isn't that of this job: take it away by `tools/districts tidy`"
        )

    def test_tidy_takes_away_what_is_refused_and_what_is_of_no_job(self):
        self.cut([*REGION, "lot x 1 90 0 1 1 wall"], 1)
        self.run_jobs()
        self.cut(REGION, 1)
        broken = next(path for path in self.jobs("out") if path.stem in (self.folder / "plan.json").read_text())
        broken.write_text("")
        (self.folder / "jobs" / "killed.host.17.part").write_text("half")
        self.assertEqual(self.call("tidy", self.folder)[1], f"{self.folder}: 4 files taken away\n")
        self.assertEqual(self.todo(), [broken.stem])
        self.assertEqual(len(self.jobs()), 4)

    def test_no_file_is_changed_in_place_and_what_is_half_written_is_taken_away(self):
        """Who has a file open reads on in it."""
        self.cut([*REGION, "bill"], 1)
        self.rounds()
        kept = {}
        for turn in range(2):
            self.run_jobs()
            for word in ("join", "tiles"):
                self.assertEqual(self.call(word, self.folder, "--workers", "1")[0], 0)
            for number, path in enumerate(self.folder.rglob("*.*") if turn == 0 else ()):
                kept[self.top / str(number)] = path.read_bytes()
                os.link(path, self.top / str(number))
            self.cut([line.replace("flat 2", "flat2 3") for line in [*REGION, "bill"]], 1)
        self.assertEqual({path: path.read_bytes() for path in kept}, kept)
        self.call("tidy", self.folder)
        for name in (
            "town.obj.part",
            "town.obj.3.piece",
            "plan.json.17.new",
            f"jobs/{self.jobs()[0].name}.17.new",
            "tiles/tileset.json.17.new",
        ):
            (self.folder / name).write_text("half")
        self.assertEqual(self.call("tidy", self.folder)[1], f"{self.folder}: 5 files taken away\n")

    def limited(self, most, *words):
        """A call that can't write more bytes to a file."""
        kept = resource.getrlimit(resource.RLIMIT_FSIZE)
        resource.setrlimit(resource.RLIMIT_FSIZE, (most, kept[1]))
        try:
            return self.call(*words)
        finally:
            resource.setrlimit(resource.RLIMIT_FSIZE, kept)

    def test_a_file_that_has_no_room_is_named(self):
        self.write(REGION)
        self.assert_refused(
            self.limited(100, "cut", self.script, self.folder, "--lots", "1", "--program", STAND_IN),
            ".cga: File too large",
        )
        self.cut(REGION, 1)
        self.run_jobs()
        for word, named in (("join", "town.obj.0.piece"), ("tiles", ".glb")):
            status, _, told = self.limited(128, word, self.folder, "--workers", "1")
            self.assertEqual((status, told.endswith(f"{named}: File too large\n")), (1, True), told)
        self.assertEqual(
            [path.name for path in self.folder.rglob("*.*") if "town" in path.name or path.suffix in (".new", ".glb")],
            [],
        )

    def test_a_refused_lot_is_named(self):
        self.cut([*REGION, "lot thin 1 50 0 0 4 wall"], 4096)
        self.run_jobs()
        self.assert_not_taken("refused BadLot thin: mend that line")

    def test_a_job_past_a_run_is_named(self):
        self.cut([*REGION, "lot huge 1 60 0 1 1 wall"], 1)
        self.run_jobs()
        self.assert_not_taken("refused OverBudget: the job of the lot `huge` is past what a run takes, 400,000 shapes")

    def test_lots_whose_boxes_touch_are_put_together_and_stay_so(self):
        lines = asking(*REACHING)
        self.cut(lines, 1)
        self.assertEqual(len(self.todo()), 5)
        self.run_jobs()
        self.assertEqual(
            self.call("check", self.folder),
            (3, "", "boxes of 4 lots touch boxes of other jobs: 2 jobs to run; run them, and check again\n"),
        )
        self.assertFalse((self.folder / "counts").exists())
        self.assertEqual(self.rounds()[0], 1)
        self.assert_whole(lines)
        self.cut(lines, 1)
        self.assertEqual(self.todo(), [], "what was put together stays so")
        edited = [line.replace("lot c 1", "lot c 2") for line in lines]
        self.cut(edited, 1)
        self.assertEqual(len(self.todo()), 1, "an edit elsewhere costs its own job alone")
        moved = [line.replace("lot a 6 0 0", "lot a 6 0 90") for line in lines]
        self.cut(moved, 1)
        self.assertEqual(
            len(self.todo()), 1, "a lot that went away stands by itself; without it b is what it was in the first round"
        )
        self.cut(lines, 1)
        self.assertEqual(self.todo(), [], "and an undo costs none")

    def test_boxes_are_compared_exactly(self):
        """The box of a ends at 1/3, where that of b begins, and 1 further are another two; as floats all would be off."""
        for second, rounds in (("1/3", 2), ("0.3333333333333333333"[:19], 2), ("0.3333333333333334", 1)):
            lots = ["lot a 1 -5/3 0 1 1 wall", f"lot b 1 {second} 0 1 1 wall"]
            self.folder = self.top / second.replace("/", "_")
            self.cut(asking(*lots), 1)
            self.assertEqual(self.rounds()[0], rounds, second)
            self.assert_whole(asking(*lots))

    def test_boxes_that_share_a_face_touch(self):
        lots = ["lot a 1 0 0 1 1 wall", "lot b 1 2 0 1 1 wall"]
        self.cut(asking(*lots), 1)
        self.assertEqual(self.rounds()[0], 2)

    def test_a_program_that_tells_no_boxes(self):
        self.cut(asking(*LOTS), 1)
        self.run_jobs()
        for path in self.jobs("out"):
            path.write_text(
                "".join(line for line in path.read_text().splitlines(True) if not line.startswith("# hull"))
            )
        self.assert_refused(
            self.call("check", self.folder), "rule 7 asks by Scope.occ, and the program of the jobs tells no boxes"
        )

    def test_bills_are_sums(self):
        self.cut([*REGION, "bill"], 1)
        self.rounds()
        bill = (self.folder / "town.bill").read_text().split("\n")[:2]
        self.assertEqual(bill, ["# bill 1", "# bill wall 6 6.000003 7.500000 0"])

    def test_models_are_joined(self):
        self.cut([*RULES[:1], "asset box", "f 1 2 3", "end", *RULES[1:], "dress wall box", *LOTS, "model"], 2)
        self.assertEqual(self.jobs()[0].read_text().split("\n")[2:6], ["asset box", "f 1 2 3", "end", "dress wall box"])
        self.rounds()
        self.assertEqual(self.call("join", self.folder, "--workers", "1")[0], 0)
        lines = (self.folder / "model.obj").read_text().split("\n")
        self.assertEqual([line for line in lines if line.startswith("o ")], ["o a", "o flat", "o c", "o d"])
        self.assertEqual((lines.count("g wall"), lines[-3]), (12, "f 89 90 91 92"))

    def spoilt(self, chance, data):
        """The bytes with a part that went, a byte or a word that is another, or a line twice."""
        at, lines, words = chance.randrange(len(data) + 1), data.split(b"\n"), data.split(b" ")
        line, word = chance.randrange(len(lines)), chance.randrange(len(words))
        other = chance.choice([b"", b"-1", b"x", b"1/0", b"9" * 25, b"#", b"0"])
        return chance.choice(
            [
                data[:at],
                data[:at] + bytes([chance.randrange(256)]) + data[at + 1 :],
                b"\n".join(lines[:line] + lines[line + 1 :]),
                b"\n".join(lines[:line] + lines[line : line + 1] + lines[line:]),
                b" ".join(words[:word] + [other] + words[word + 1 :]),
            ]
        )

    def test_files_that_are_spoilt_are_told_of_in_words(self):
        """Nothing of Python comes out, whatever stands in the files."""
        for number, (lines, words) in enumerate(
            (([*RULES, *LOTS, "bill", "model"], []), (asking(*REACHING), []), (asking(*REACHING), ["--rings", "1"]))
        ):
            self.folder = self.top / str(number)
            self.cut(lines, 2, *words)
            self.rounds()
            self.call("tiles", self.folder, "--workers", "1")
            kept = {
                path: path.read_bytes()
                for kind in ("jobs/*", "*.json", "region.cga", "tiles/*.glb")
                for path in sorted(self.folder.glob(kind))
            }
            for chance in chances(25, number):
                path = chance.choice(list(kept))
                path.write_bytes(self.spoilt(chance, kept[path]))
                for word in ("status", "join", "tiles"):  # the last two begin with a check
                    status, _, told = self.call(
                        word, self.folder, *(["--workers", "1"] if word in ("join", "tiles") else [])
                    )
                    self.assertIn(status, (0, 1, 3), told)
                    self.assertNotRegex(
                        told, r"literal|codec|unpack|Expecting|substring|Extra data|range|Unterminated|NoneType", path
                    )
                for other in [*self.folder.glob("jobs/*"), *self.folder.glob("found.json")]:
                    other.unlink()
                for other, data in kept.items():
                    other.write_bytes(data)

    def test_names_of_lots_are_only_data(self):
        for name in ("a'b", 'a"b', "$(touch", "`touch", "a;b", "../a", "a\\b", "a/b", "-a", "*"):
            self.assert_refused(
                self.cut([*RULES, f"lot {name} 1 0 0 1 1 wall"]),
                ":6: a lot is written `lot NAME SEED X Z WIDTH DEPTH SYMBOL`",
            )
        self.assertFalse(self.folder.exists())

    def test_a_plan_that_is_no_plan(self):
        self.cut(REGION)
        plan = (self.folder / "plan.json").read_text()
        lots = (self.folder / "plan.lots").read_bytes()
        other = lots[4:] + lots[-4:]  # one job has a lot too much
        plans = *((text, lots) for text in ("", "{}", '{"form": 9}', "[]")), (plan, other), (plan, b"")
        for text, deal in [*plans, (plan.replace(digest(lots), digest(other)), other)]:
            (self.folder / "plan.json").write_text(text)
            (self.folder / "plan.lots").write_bytes(deal)
            self.assert_refused(
                self.call("check", self.folder), "plan.json wasn't written by this tool: cut the script again"
            )
        for text in ("", "5", "[1]"):
            (self.folder / "found.json").write_text(text)
            self.assert_refused(self.cut(asking(*LOTS)), "found.json wasn't written by this tool: take it away")


if __name__ == "__main__":
    unittest.main()
