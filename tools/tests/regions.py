"""What tests of regions share: a folder, calls of the tool, jobs run by a program, and regions of random lots."""
import hashlib
import random
import subprocess
import sys
import tempfile
import time
import unittest
from pathlib import Path
from unittest.mock import patch

TESTS = Path(__file__).resolve().parent
TOP = TESTS.parent.parent
STAND_IN = str(TESTS / "region_stand_in.py")
DEFINED = str(TESTS / "defined_hulls.py")  # the language itself, slowly
sys.path[:0] = [str(TESTS), str(TESTS.parent)]

import region_stand_in  # noqa: E402
from in_process import called  # noqa: E402

from cga_city_lib import head, program  # noqa: E402
from cga_city_lib.replies import replies  # noqa: E402

RULES = ["version 2", "rules", '1: wall -> I("cube")', "end", "attr h = 3  # high"]
ASKING = '7: wall : Scope.occ("active") == "none" -> NIL'


def asking(*lots):
    return [*RULES[:3], ASKING, *RULES[3:], *lots]


def value(chance, most):
    """A number, whole or not, negative or not, as scripts spell it."""
    whole = chance.randint(-most, most)
    return chance.choice(
        [str(whole), str(whole), f"{whole}.{chance.randint(0, 99):02}", f"{whole}/{chance.choice([2, 3, 7])}"]
    )


def random_lots(chance, number, most):
    """Lots with corners anywhere, in names of random order."""
    names = chance.sample(range(1000), number)
    sizes = [(chance.choice(["1", "4", "2.5", "7/3"]), chance.choice(["1", "3", "4/3"])) for _ in names]
    return [
        f"lot {chance.choice(['l', 'flat'])}{name} {chance.randint(0, 3)} {value(chance, most)} {value(chance, most)} {width} {depth} wall"
        for name, (width, depth) in zip(names, sizes)
    ]


def answering(named):
    """What answers here in the place of a program, which takes no start; None for any other program."""
    if named == DEFINED:
        from defined_hulls import answer  # few tests need it

        return answer
    return region_stand_in.answer if named == STAND_IN else None


def run(program, lines, *words):
    answer = answering(program)
    if answer:
        return answer("".join(f"{line}\n" for line in lines), list(words))
    done = subprocess.run(
        [program, *words],
        input="".join(f"{line}\n" for line in lines).encode("latin-1"),
        stdout=subprocess.PIPE,
        check=True,
    )
    return done.stdout.decode("latin-1").split("\n")[:-1]


def answered(named, script):
    """The status and the replies of a program."""
    answer = answering(named)
    return (0, answer(script.decode("latin-1"))) if answer else program.run(named, script)


def ended(out, name, program):
    """An output as the script `job` leaves it."""
    text = "".join(f"{line}\n" for line in out).encode("latin-1")
    digests = [hashlib.sha256(data).hexdigest() for data in (text, program)]
    return text + " ".join(["# job", name, *digests]).encode() + b"\n"


def whole(program, lines, *words):
    """The town, the faults and the counts of one run."""
    head = [line for line in lines if line not in ("print", "bill", "model", "stats")]
    out = [line for line in run(program, [*head, "print", "faults", "stats"], *words) if not line.startswith("# hull ")]
    *_, town, faults, stats = replies(out)
    return town, faults, " ".join(stats[0].split()[2:10])


def wait(is_so, seconds=300):
    """Waits until that is so, and not for ever."""
    end = time.monotonic() + seconds
    while not is_so():
        if time.monotonic() > end:
            raise AssertionError(f"it didn't come to be in {seconds} seconds")
        time.sleep(0.02)


class RegionTest(unittest.TestCase):
    def setUp(self):
        folder = tempfile.TemporaryDirectory()
        self.addCleanup(folder.cleanup)
        self.top = Path(folder.name)
        self.script, self.folder = self.top / "region.cga", self.top / "a region's $folder"
        patched = patch.object(head, "run", answered)
        patched.start()
        self.addCleanup(patched.stop)

    def call(self, *words):
        """The status of a call, what it prints, and what it tells on the other stream."""
        return called("districts", *words)

    def write(self, lines):
        self.script.write_text("\n".join(lines) + "\n", encoding="latin-1")

    def cut(self, lines, lots=2, *words, program=STAND_IN):
        self.write(lines)
        return self.call("cut", self.script, self.folder, "--lots", str(lots), "--program", program, *words)

    def program_bytes(self):
        """Of the copy that the cut made."""
        (path,) = self.folder.glob("program-*")
        return path.read_bytes()

    def jobs(self, kind="cga"):
        return sorted((self.folder / "jobs").glob(f"*.{kind}"))

    def todo(self):
        return self.call("todo", self.folder)[1].split()

    def held(self):
        """A file that holds programs up as long as it is there, as REGION_HELD says to them."""
        path = self.top / "held"
        path.touch()
        return path

    def run_jobs(self, program=STAND_IN, *words):
        """Runs the jobs as the script `job` does."""
        for name in self.todo():
            job = self.folder / "jobs" / f"{name}.cga"
            out = run(program, job.read_text(encoding="latin-1").split("\n"), *words)
            job.with_suffix(".out").write_bytes(ended(out, name, self.program_bytes()))

    def rounds(self, most=30, program=STAND_IN, *words):
        """Runs jobs and checks until nothing is to be run; gives the rounds that it took, and the last answer."""
        for number in range(1, most):
            self.run_jobs(program, *words)
            answer = self.call("check", self.folder)
            if answer[0] != 3:
                return number, answer
        self.fail("the rounds don't come to an end")

    def joined(self, folder=None):
        """The town, the faults and the counts, without the last line of each, which has the digest of the plan."""
        texts = [
            ((folder or self.folder) / name).read_text(encoding="latin-1").split("\n")[:-1]
            for name in ("town.obj", "town.faults", "counts")
        ]
        digest = hashlib.sha256((self.folder / "plan.json").read_bytes()).hexdigest()
        self.assertEqual([text.pop() for text in texts], 3 * [f"# plan {digest}"])
        return texts[0], texts[1], texts[2][0]

    def assert_whole(self, lines, program=STAND_IN, *words):
        """What is joined is what one run prints, byte by byte."""
        answer = self.call("join", self.folder, "--workers", "1")
        self.assertEqual(answer[0], 0, answer)
        self.assertEqual(self.joined(), whole(program, lines, *words))

    def assert_refused(self, answer, told, status=1):
        self.assertEqual(answer[:2], (status, ""), answer[2])
        self.assertIn(told, answer[2])


def chances(number, seed=0):
    return (random.Random(1000 * seed + at) for at in range(number))
