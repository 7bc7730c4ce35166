"""A copy of the launcher with three crates and a stand-in for rt, and how a test calls it."""
import os
import pty
import shutil
import subprocess
import tempfile
import time
import unittest
from pathlib import Path

TOP = Path(__file__).resolve().parent.parent
CRATES = {"cga_word": "rand_core", "cga_top": "cga_word", "cga_main": "cga_top clap"}


def waits_for(holds, seconds=300):
    end = time.monotonic() + seconds
    while not holds():
        if time.monotonic() > end:
            raise AssertionError(f"it didn't come to hold in {seconds} seconds")
        time.sleep(0.03)


class Copy(unittest.TestCase):
    """A copy of the launcher, with the stand-in; a class has one for all its tests."""

    @classmethod
    def setUpClass(cls):
        cls.work = Path(tempfile.mkdtemp())
        cls.addClassCleanup(shutil.rmtree, cls.work)
        cls.top = cls.work / "a city, with spaces"
        cls.city, cls.main = cls.top / "cga_city", cls.top / "crates" / "cga_main"
        shutil.copytree(TOP / "tools" / "cga_city_lib", cls.top / "tools" / "cga_city_lib")
        shutil.copy(TOP / "cga_city", cls.top)
        for name in CRATES:
            cls.add_crate(name)
        (cls.top / "crates.txt").write_text(
            "# NAME: what it stands on\n" + "".join(f"{name}: {low}\n" for name, low in reversed(CRATES.items()))
        )
        (cls.work / "elsewhere" / "crates").mkdir(parents=True)
        cls.add_kit("kit")
        (cls.work / "calls").touch()
        cls.env = {
            "PATH": f"{cls.work}/kit/bin:/usr/bin:/bin",
            "WORK": str(cls.work),
            "TMPDIR": str(cls.work / "elsewhere"),
            "HOME": str(cls.work / "home"),
        }

    @classmethod
    def add_kit(cls, name):
        """A kit whose programs are all the stand-in."""
        kit = cls.work / name
        for path in ("bin/rt", "bin/rattle", "bin/rattle-link", "toolchain/bin/clang"):
            (kit / path).parent.mkdir(parents=True, exist_ok=True)
            shutil.copy(TOP / ".ci" / "rt_stand_in", kit / path)
        (kit / "toolchain/bin/ld.lld").symlink_to("clang")
        (kit / "KIT-ID").write_text(f"the kit {name}\n")
        return kit / "bin"

    @classmethod
    def add_crate(cls, name):
        for part in ("src", "specs", "proofs"):
            (cls.top / "crates" / name / part).mkdir(parents=True)
        (cls.top / "crates" / name / "src" / "main.rt").write_text("fn main() {}\n")

    def held(self):
        """A file that holds a build up as long as it is there."""
        path = self.work / "held"
        path.touch()
        return path

    def begin(
        self,
        *words,
        city=None,
        cwd=None,
        script=subprocess.DEVNULL,
        out=subprocess.PIPE,
        err=subprocess.PIPE,
        before=None,
        **env,
    ):
        return subprocess.Popen(
            [city or self.city, *words],
            stdin=script,
            stdout=out,
            stderr=err,
            cwd=cwd,
            preexec_fn=before,
            env={**self.env, **env},
        )

    def end(self, job, script=b"a script\n", said=None):
        """What it said comes from a file, where it was sent there."""
        out, err = job.communicate(script if job.stdin else None)
        self.status, self.out, self.err = (
            job.returncode,
            (out or b"").decode(),
            (said.read_bytes() if said else err).decode(),
        )

    def call(self, *words, script=subprocess.PIPE, **more):
        self.end(self.begin(*words, script=script, **more))

    def in_terminal(self, *words):
        """A call whose standard input is a terminal; what it says stands in err."""
        child, terminal = pty.fork()
        if not child:
            os.execve(self.city, [self.city, *words], {**os.environ, **self.env})
        os.write(terminal, b"a script\n\4")
        said = b""
        try:
            while data := os.read(terminal, 9999):
                said += data
        except OSError:
            pass  # the terminal ends with the call
        self.status, self.out, self.err = os.waitstatus_to_exitcode(os.waitpid(child, 0)[1]), "", said.decode()

    def check(self, name, holds):
        with self.subTest(name):
            self.assertTrue(holds, f"{name}: status {self.status}, it said {self.err!r} and replied {self.out!r}")

    def replies(self, name, status, out):
        self.check(name, (self.status, self.out) == (status, out))

    def says(self, name, text):
        self.check(name, text in self.err)

    def calls(self, verb):
        return [line.split()[1] for line in (self.work / "calls").read_text().splitlines() if line.split()[0] == verb]

    def is_proved(self):
        self.call("--proved")
        return self.status == 0

    def builds(self):
        """How many builds without a proof were begun."""
        return len(self.calls("compile"))
