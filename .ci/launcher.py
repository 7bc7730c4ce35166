#!/usr/bin/env python3
"""The launcher, tried in a copy with three crates and a stand-in for the kit that does in a second what takes an hour."""
import os
import resource
import shutil
import signal
import subprocess
import unittest
from pathlib import Path

from launcher_copy import Copy, waits_for

WORDS = ["--decimals", "--town", "--checked", "--build", "--prove", "--proved", "--version", "--help"]


def setUpModule():
    """A gate that is begun in the background, or by nohup, ignores signals from the start, and what it begins would ignore them,
    too."""
    signal.signal(signal.SIGINT, signal.default_int_handler)
    signal.signal(signal.SIGHUP, signal.SIG_DFL)


class Words(Copy):
    def test_help(self):
        self.call("--help")
        self.check("help", self.status == 0)
        heads = [line.split()[0] for line in self.out.splitlines() if line.startswith("  --")]
        self.check("help tells each word", heads == WORDS)

    def test_wrong_words(self):
        self.call("x")
        self.replies("a wrong word", 2, "")
        self.check("the usage comes first", self.err.splitlines()[0] == "usage: cga_city [--decimals N] [--town N]")
        for words, why in (
            ("--decimals 10", "from 0 to 9, and not '10'"),
            ("--decimals", "from 0 to 9, and none is given"),
            ("--decimals 1 --decimals 1", "twice"),
            ("--town 0", "from 1 to 200"),
            ("--town 201", "from 1 to 200"),
            ("--town 2 x", "x is none"),
            ("--prove --quick", "--prove stands alone, and '--quick' stands beside it"),
            ("--version now", "--version stands alone, and 'now' stands beside it"),
            ("--decimals 3 --proved", "--proved stands alone, and '--decimals' stands beside it"),
            ("--help me", "--help stands alone, and 'me' stands beside it"),
            ("--decimals 3 --build", "--build stands first"),
            ("--build cga_word", "takes the names cga_main, and not 'cga_word'"),
        ):
            self.call(*words.split())
            self.replies(f"wrong words: {words}", 2, "")
            self.says(f"why: {words}", why)
        self.call(b"\xff")
        self.replies("words that are no text", 7, "")
        self.check(
            "nothing is made or run for words",
            not (self.main / "out").exists() and not self.calls("try") + self.calls("run"),
        )


class Checked(Copy):
    def test_no_rt(self):
        self.call("--checked", PATH="/usr/bin:/bin")
        self.replies("no rt in the path", 1, "")
        self.says("it is said", "rt isn't on the PATH")

    def test_replies(self):
        self.call("--checked", "--decimals", "2")
        self.replies("a checked reply", 0, "checked --decimals 2\na script\n")
        self.says("it says so", "UNPROVED")
        self.call("--checked", STAND_IN="ends5")
        self.replies("the status of a checked run", 5, "checked\na script\n")
        self.says("what the run said", "cga_city: script too long")
        self.in_terminal("--checked")
        self.says("checked from a terminal", "Ctrl-D")

    def test_no_answer(self):
        for how, names, text in (
            ("long", ("no part of a long reply", "the limit is said"), "1 MiB"),
            ("slow", ("a run past its time", "the time is said"), "took too long"),
            ("refused", ("sources that are refused", "why they are"), "src/main.rt:7"),
        ):
            self.call("--checked", STAND_IN=how)
            self.replies(names[0], 1, "")
            self.says(names[1], text)

    def test_failing_ends(self):
        folder = os.open(self.work, os.O_RDONLY)
        self.addCleanup(os.close, folder)
        self.call("--checked", script=folder)
        self.replies("a folder as the script", 3, "")
        with open("/dev/full", "wb") as full:
            self.call("--checked", out=full)
        self.check("a full disk", self.status == 4)


class Kept(Copy):
    """A program that is built without a proof, one test after the other in the order of the names."""

    def setUp(self):
        self.kept = self.main / "out" / "unproved" / "cga_main"

    def is_kept(self, name, number, **how):
        """Whether a call is replied to by a kept program, of so many builds."""
        self.call(**how)
        self.check(name, (self.status, self.out, self.builds()) == (0, "kept \na script\n", number))

    def test_0_no_rt(self):
        self.call(PATH="/usr/bin:/bin")
        self.replies("no rt in the path", 1, "")
        self.says("it is said", "rt isn't on the PATH")

    def test_1_not_made(self):
        for how, text in (("refused", "src/main.rt:7"), ("unlinked", "undefined symbol: strange")):
            self.call(STAND_IN=how)
            self.replies(f"a build that fails: {how}", 1, "")
            self.says(f"why: {how}", text)
            self.check(f"nothing is kept: {how}", sorted(os.listdir(self.kept.parent)) == ["build.log", "lock"])
        limit = lambda: resource.setrlimit(resource.RLIMIT_FSIZE, (150, 150))  # noqa: E731
        self.call(before=limit)
        self.replies("a file that can't be written whole", 1, "")
        self.check("and nothing is kept", sorted(os.listdir(self.kept.parent)) == ["build.log", "lock"])
        self.check("without a trace", "Traceback" not in self.err)

    def test_2_builds_once(self):
        number = self.builds()
        self.call("--proved")
        self.replies("nothing is proved yet", 1, "not proved: cga_main isn't proved yet\n")
        held, told = self.held(), self.work / "told"
        first = self.begin("--decimals", "2", HELD=str(held))
        waits_for(lambda: self.builds() > number)
        with told.open("wb") as said:
            second = self.begin(err=said)
        waits_for(lambda: b"waiting for it" in told.read_bytes())
        held.unlink()
        self.end(first)
        self.replies("the first call builds", 0, "kept --decimals 2\n")
        self.says("it says how far it is", "step 1 of 2")
        self.says("it says what replies", "UNPROVED")
        self.says("and what to do", "./cga_city --prove")
        self.end(second, said=told)
        self.replies("a call beside it waits", 0, "kept \n")
        self.check("one build is enough", self.builds() == number + 1)
        self.is_kept("the next call", number + 1)
        self.check("one line says so", self.err.count("\n") == 1 and "UNPROVED" in self.err)
        self.check("nothing else is kept", len(os.listdir(self.kept.parent)) == 4)
        self.in_terminal()
        self.check("from a terminal", self.status == 0 and "Ctrl-D" in self.err)

    def test_3_what_counts(self):
        source, number = self.main / "src" / "main.rt", self.builds()
        text = source.read_text()
        source.touch()
        (self.main / "proofs" / "More.antt").write_text("")
        self.is_kept("a source that is touched, and a proof", number)
        source.write_text(text + "// an edit\n")
        self.is_kept("an edit", number + 1)
        self.is_kept("a kept edit", number + 1)
        self.add_kit("other kit")
        self.is_kept("another kit", number + 2, PATH=f"{self.work}/other kit/bin:/usr/bin:/bin")
        self.is_kept("no kit", number + 2, PATH="/usr/bin:/bin")
        self.is_kept("the first kit again", number + 3)
        whole = self.kept.read_bytes()
        self.kept.write_bytes(whole[:20])
        self.is_kept("a program that is cut", number + 4)
        self.kept.with_name("cga_main.sources").write_text("half")
        self.is_kept("a record that is broken", number + 5)
        self.kept.with_name("cga_main.sources").unlink()
        self.kept.with_name("cga_main.part").write_bytes(whole[:9])
        self.is_kept("no record, and a part of a build", number + 6)
        way = self.top / "tools" / "cga_city_lib" / "native.py"
        way.write_text(way.read_text() + "# another way\n")
        self.is_kept("another way to build", number + 7)

    def test_4_an_edit_during_a_build(self):
        source, number, held = self.main / "src" / "main.rt", self.builds(), self.held()
        source.write_text("// one edit\n")
        job = self.begin(HELD=str(held))
        waits_for(lambda: self.builds() > number)
        source.write_text("// another edit\n")
        held.unlink()
        self.end(job)
        self.replies("an edit during a build", 1, "")
        self.says("it is said", "a source changed while cga_main was built")
        self.is_kept("and the next call builds", number + 2)

    def test_5_a_checkout_that_is_only_read(self):
        source, home = self.main / "src" / "main.rt", self.work / "home"
        source.write_text("// only read\n")
        home.mkdir()
        shutil.rmtree(self.main / "out")
        for path in (self.work, self.work / "elsewhere"):
            path.chmod(0o777 if path != self.work else 0o755)
        (self.work / "calls").chmod(0o666)
        (self.work / "pid").chmod(0o666)
        number, stranger = self.builds(), {}
        if os.getuid() == 0:
            os.chown(home, 65534, 65534)
            stranger["before"] = lambda: os.setuid(65534)
        self.main.chmod(0o555)
        self.is_kept("it is kept in the user's cache", number + 1, **stranger)
        self.check("there", [*home.glob(".cache/cga_city/*/cga_main/cga_main")])
        self.is_kept("and found there", number + 1, **stranger)
        shutil.rmtree(home / ".cache")
        home.chmod(0o500)
        if os.getuid() == 0:
            os.chown(home, 0, 0)
        self.call(**stranger)
        self.replies("where nothing can be written", 1, "")
        self.says("it is said", "can be written")
        self.main.chmod(0o755)
        home.chmod(0o755)

    def test_6_words(self):
        for words in (["--decimals=+007", "--town", "200"], ["--"], ["--decimals", "0", "--"]):
            self.call(*words)
            self.replies(f"words: {words}", 0, f"kept {' '.join(words)}\na script\n")
        self.call("--build", "cga_main")
        self.replies("built by its name", 0, "")
        self.says("is said", "built: cga_main")


class Elsewhere(Copy):
    def test_from_elsewhere(self):
        elsewhere = self.work / "elsewhere"
        self.call(city="../a city, with spaces/cga_city", cwd=elsewhere, CDPATH=str(self.top))
        self.replies("from another folder, with CDPATH", 0, "kept \na script\n")
        (elsewhere / "city").symlink_to(self.city)
        self.call(city=elsewhere / "city")
        self.replies("through a symbolic link", 0, "kept \na script\n")
        self.check("nothing is made beside the link", not [*(elsewhere / "crates").iterdir()])


class Builds(Copy):
    def test_a_failing_build(self):
        self.call("--prove", STAND_IN="fails")
        self.replies("a failing build", 1, "")
        self.says("the log's end is shown", "a clause did not prove")
        self.check("it proves nothing", not self.is_proved())

    def test_a_late_log(self):
        self.call("--prove", STAND_IN="late")
        self.replies("a log that comes late", 1, "")
        self.says("and is read when it is there", "a late clause did not prove")

    def ends_by(self, number, words):
        pid = self.work / "pid"
        pid.unlink(missing_ok=True)
        shutil.rmtree(self.main / "out" / "unproved", ignore_errors=True)
        job = self.begin(*words, STAND_IN="hangs")
        waits_for(lambda: pid.exists() and pid.read_text())
        job.send_signal(number)
        self.end(job)
        self.replies(f"{number.name[3:]} of a call {' '.join(words)}", 128 + number, "")
        self.check("it ends what it began", not Path("/proc", pid.read_text()).exists())
        self.check("and leaves nothing", not [*(self.work / "elsewhere").glob("*city*")])

    def test_signals(self):
        for words in (["--prove"], ["--checked"], []):
            for number in (signal.SIGTERM, signal.SIGINT, signal.SIGHUP):
                self.ends_by(number, words)

    def test_a_signal_that_is_ignored(self):
        job = self.begin(script=subprocess.PIPE, before=lambda: signal.signal(signal.SIGHUP, signal.SIG_IGN))
        job.send_signal(signal.SIGHUP)
        self.end(job)
        self.replies("a call that nohup keeps", 0, "kept \na script\n")


class Proved(Copy):
    """One build after the other, in the order of the names."""

    def test_1_builds(self):
        held, told, other = self.held(), self.work / "told", self.work / "other"
        with told.open("wb") as said, other.open("wb") as said_second:
            first = self.begin("--prove", err=said, SAID=str(told), HELD=str(held))
            waits_for(lambda: self.calls("run"))
            second = self.begin("--prove", err=said_second)
        self.call()
        self.replies("a call beside a build", 0, "kept \na script\n")
        waits_for(other.read_text)
        held.unlink()
        self.end(first, said=told)
        self.check("the build", self.status == 0)
        for part in ("crate 1 of 3, cga_word", "crate 2 of 3, cga_top", "crate 3 of 3, cga_main"):
            self.says(part, part)
        self.end(second, said=other)
        self.check("a second build waits", self.status == 0)
        self.says("and says so", "waiting for it")
        self.check("one build is enough", self.calls("run") == ["cga_main"])

    def test_2_replies(self):
        self.call("--proved")
        self.replies("it is proved", 0, "proved, of these sources\n")
        self.call("--town", "3", "--decimals", "2")
        self.replies("a proved reply", 5, "proved --town 3 --decimals 2\na script\n")
        self.check("without a word beside", self.err == "")
        self.call("--prove")
        self.check("proved already", self.calls("run") == ["cga_main"])
        self.check("at the first word", self.status == 0)
        self.in_terminal()
        self.check("from a terminal", self.status == 5)
        self.says("it says how to end", "Ctrl-D")
        read, write = os.pipe()
        os.close(read)
        self.call(out=write)
        os.close(write)
        self.check("nobody reads what comes out", self.status == -signal.SIGPIPE)
        for name, said, told in (
            ("large blocks go back to the system", {}, "131072"),
            ("or as the caller says", {"MALLOC_MMAP_THRESHOLD_": "7"}, "7"),
        ):
            self.call(TOLD="MALLOC_MMAP_THRESHOLD_", **said)
            self.replies(name, 5, f"proved \n{told}\na script\n")

    def test_3_edits(self):
        source = self.main / "src" / "main.rt"
        text = source.read_text()
        source.touch()
        self.check("a source that is touched", self.is_proved())
        source.write_text(text + "// an edit\n")
        self.call()
        self.replies("after an edit", 0, "kept \na script\n")
        self.says("it says why", "crates/cga_main/src/main.rt has changed")
        self.check("and proves nothing unasked", self.calls("run") == ["cga_main"])
        source.write_text(text)
        self.check("an edit that is taken back", self.is_proved())
        times = source.stat()
        source.write_text(text.swapcase())
        os.utime(source, ns=(times.st_atime_ns, times.st_mtime_ns))
        self.check("an edit that has the size and the time of before", not self.is_proved())
        source.write_text(text)

    def test_4_what_counts(self):
        for name, counts in (
            ("src/more.rt", True),
            ("proofs/More.antt", True),
            ("src/.main.rt.swp", False),
            ("must-fail", False),
        ):
            path = self.main / name
            path.write_text("")
            self.check(f"a new file {name}", self.is_proved() != counts)
            path.unlink()
        crates = self.top / "crates.txt"
        text = crates.read_text()
        crates.write_text("cga_far: cga_word\n" + text)
        self.check("a crate that it doesn't stand on", self.is_proved())
        crates.write_text(text.replace("cga_word: rand_core", "cga_word: rand_core rand_pcg"))
        self.check("a crate that stands on another", not self.is_proved())
        crates.write_text(text)
        shutil.copytree(self.top, self.work / "clone", copy_function=shutil.copyfile)
        (self.work / "clone" / "crates" / "cga_main" / "out" / "cga_main").chmod(0o755)
        shutil.copymode(self.city, self.work / "clone" / "cga_city")
        self.call("--proved", city=self.work / "clone" / "cga_city")
        self.check("a clone with the program and its sums", self.status == 0)
        program = self.main / "out" / "cga_main"
        whole = program.read_bytes()
        program.write_bytes(whole[:20])
        self.check("another program in its place", not self.is_proved())
        program.write_bytes(whole)

    def edited_during_build(self, name, *texts):
        source, number = self.main / "src" / "main.rt", len(self.calls("run"))
        source.write_text(f"// edit {number}\n")
        held = self.held()
        job = self.begin("--prove", HELD=str(held))
        waits_for(lambda: len(self.calls("run")) > number)
        for text in texts:
            source.write_text(text)
        held.unlink()
        self.end(job)
        self.check(f"{name} is said", self.status == 1 and "a source changed while the program was built" in self.err)
        self.check(name, not self.is_proved())

    def test_5_edits_during_a_build(self):
        self.edited_during_build("an edit during the build", "// another\n")
        self.edited_during_build(
            "an edit that is taken back during the build", "// another\n", f"// edit {len(self.calls('run'))}\n"
        )
        self.call("--prove")
        self.check("built again", self.is_proved())
        (self.main / "src" / "main.rt").unlink()
        self.call("--proved")
        self.replies("a source that went", 1, "not proved: crates/cga_main/src/main.rt is gone\n")

    def test_6_further_programs(self):
        self.add_crate("cga_hulls")
        with open(self.top / "crates.txt", "a") as file:
            file.write("cga_hulls: cga_top\n")
        number = len(self.calls("run"))
        self.call("--prove")
        self.check("each program is built", self.calls("run")[number:] == ["cga_main", "cga_hulls"])
        self.says("and named", "proved and built: cga_main, cga_hulls")
        self.call("--prove")
        self.check("and no program twice", len(self.calls("run")) == number + 2)


class Stamps(Copy):
    """Which programs `.ci/built.py` takes for built by the run between its two calls."""

    MAKES = 'echo "echo made" >"$2"; chmod +x "$2"'

    @classmethod
    def setUpClass(cls):
        super().setUpClass()
        (cls.top / ".ci").mkdir()
        shutil.copy(Path(__file__).with_name("built.py"), cls.top / ".ci")
        cls.program, cls.source = cls.main / "out" / "cga_main", cls.main / "src" / "main.rt"
        cls.program.parent.mkdir()

    def built(self, *words):
        self.call(*words, city=self.top / ".ci" / "built.py", script=subprocess.DEVNULL)
        return self.status == 0

    def run_of(self, does):
        """A run by a shell, which is given a source and the program."""
        noted = self.work / "noted"
        self.assertTrue(self.built("before", noted), self.err)
        subprocess.run(["sh", "-c", does, "sh", self.source, self.program], check=True)
        return self.built("after", noted)

    def refused(self, name, does, why):
        self.check(name, not self.run_of(does) and why in self.err)
        self.check(f"{name} is not proved", not self.is_proved())

    def test_1_refused(self):
        self.refused("a run that makes none", ":", "it isn't there")
        self.check("no word", not self.built() and "usage" in self.err)
        self.check("a wrong word", not self.built("since", self.work / "noted") and "usage" in self.err)
        subprocess.run(["sh", "-c", self.MAKES, "sh", self.source, self.program], check=True)
        self.refused("a program that was there", ":", "older than this run")
        self.refused("one that a source is newer than", 'echo "fn main() { }" >"$1"', "older than this run")
        self.refused("one that is moved away and back", 'mv "$2" "$2.old"; mv "$2.old" "$2"', "older than this run")
        self.refused(
            "one that is copied with its times",
            'cp -p "$2" "$2.old"; rm "$2"; cp -p "$2.old" "$2"',
            "older than this run",
        )
        self.refused("a source that changes after it", f'{self.MAKES}; echo "fn main() {{}}" >"$1"', "a source changed")
        self.refused("a new source", f'{self.MAKES}; echo >"$1.more.rt"', "a source changed")

    def test_2_taken(self):
        self.check("a program that the run makes", self.run_of(self.MAKES))
        self.check("is proved", self.is_proved())
        self.refused("the next run that makes none", 'echo "fn other() {}" >"$1"', "older than this run")


if __name__ == "__main__":
    unittest.main()
