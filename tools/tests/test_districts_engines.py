"""Jobs of regions by make, by xargs and by a stand-in for Slurm: jobs that fail, that end late, and rounds."""
import hashlib
import os
import re
import shutil
import signal
import subprocess
import sys
import tempfile
import unittest
from pathlib import Path
from unittest.mock import patch

from regions import RULES, STAND_IN, TOP, RegionTest, asking, wait

from cga_city_lib import joining, tiles

LOTS = [f"lot {name} {seed} {10 * x} 0 4 4 wall" for x, (name, seed) in enumerate([("a", 1), ("flat", 2), ("c", 0)])]
REGION = [*RULES, *LOTS]
REACHING = asking("lot a 6 0 0 4 4 wall", "lot b 1 10 0 4 4 wall", "lot c 1 20 0 4 4 wall")

# runs what it is given at once, as Slurm does some time; the first task of each array is killed where FAIL is set
SBATCH = """\
#!/bin/sh
array=
for word in "$@"; do
  case $word in --array=*) array=${word#--array=1-} ;; --*) ;; *) script=$word; break ;; esac
done
while [ "$1" != "$script" ]; do shift; done
shift
echo 17
if [ -n "$array" ]; then
  for task in $(seq "$array"); do
    [ "$FAIL$task" = yes1 ] || SLURM_ARRAY_TASK_ID=$task sh "$script" "$@" >>tasks.log 2>&1
  done
else
  sh "$script" "$@" >>slurm.log 2>&1
fi
exit 0
"""
WITHOUT_DIE = """\
#!/bin/sh
cat >"$0.$$"
if grep -q "lot die" "$0.$$"; then kill -9 $$; fi
exec python3 {} <"$0.$$"
"""


# a tool that is interrupted while its processes work, and perhaps while they begin
INTERRUPTED = """\
import os, signal, sys, time
signal.signal(signal.SIGINT, signal.default_int_handler)
sys.path.insert(0, sys.argv.pop(1))
from cga_city_lib.call import Words, call
from cga_city_lib.joining import workers

def work(at):
    if at == 1:
        os.killpg(0, signal.SIGINT)
    time.sleep(60)

def main(_):
    with workers(2) as pool:
        list(pool(work, range(9)))

call(main, Words(), "")
"""


def killed(given):
    os.kill(os.getpid(), signal.SIGKILL)


class Engines(RegionTest):
    @classmethod
    def setUpClass(cls):
        folder = tempfile.TemporaryDirectory()
        cls.addClassCleanup(folder.cleanup)
        cls.compiled = os.environ.get("PYTHONPYCACHEPREFIX", folder.name)  # of the tool, which is called often

    def environment(self, **held):
        """With this Python before any other."""
        return {
            **os.environ,
            "PATH": f"{self.top}:{Path(sys.executable).parent}:{os.environ['PATH']}",
            "PYTHONDONTWRITEBYTECODE": "",
            "PYTHONPYCACHEPREFIX": self.compiled,
            **held,
        }

    def make(self, *words, **environment):
        return subprocess.Popen(
            ["make", "-j", "2", "-C", self.folder, *words],
            stdout=subprocess.PIPE,
            stderr=subprocess.PIPE,
            text=True,
            env=self.environment(**environment),
        )

    def made(self, *words, **environment):
        making = self.make(*words, **environment)
        said, told = making.communicate()
        return making.returncode, re.findall(r"sh job (\w+)", said), told

    def program(self, text):
        path = self.top / "a program's $file"
        path.write_text(text)
        path.chmod(0o755)
        return str(path)

    @unittest.skipUnless(shutil.which("make"), "make isn't there")
    def test_make_runs_what_was_not_run_and_joins_where_it_is_asked(self):
        self.cut(REGION, 1)
        status, jobs, _ = self.made()
        self.assertEqual((status, len(jobs)), (0, 3))
        self.assertFalse((self.folder / "town.obj").exists())
        status, jobs, _ = self.made("town.obj")
        self.assertEqual((status, jobs), (0, []))
        self.assert_whole(REGION)
        self.cut([line.replace("lot c 0", "lot c 1") for line in REGION], 1)
        status, jobs, _ = self.made("RUN=env A=1")
        self.assertEqual((status, len(jobs)), (0, 1))

    @unittest.skipUnless(shutil.which("make"), "make isn't there")
    def test_what_a_check_advises_can_be_typed(self):
        self.cut(REGION, 1)
        _, _, told = self.call("check", self.folder)
        by_make, by_slurm = re.search(r"the first: (make .*), or (sh .*)\n", told).groups()
        done = subprocess.run(
            ["sh", "-c", f"{by_make} && ls {by_slurm[3:]}"], capture_output=True, text=True, env=self.environment()
        )
        self.assertEqual((done.returncode, self.todo()), (0, []), done.stderr)

    @unittest.skipUnless(shutil.which("make"), "make isn't there")
    def test_rounds_by_make(self):
        self.cut(REACHING, 1)
        status, jobs, told = self.made("town.obj")
        self.assertEqual((status, len(jobs)), (0, 4), told)
        self.assertIn("boxes of 2 lots touch boxes of other jobs: 1 jobs to run", told)
        self.assert_whole(REACHING)

    @unittest.skipUnless(shutil.which("make"), "make isn't there")
    def test_a_region_that_is_cut_again_while_a_job_runs(self):
        """The job ends late, and under its old name: nothing of it comes into the new region."""
        self.cut(REGION, 4096)
        held = self.held()
        late = self.make("town.obj", REGION_HELD=str(held))
        wait(lambda: self.jobs("part"))
        changed = [line.replace("lot flat 2", "lot flat 3") for line in REGION[:-1]]
        self.cut(changed, 4096)
        held.unlink()
        _, told = late.communicate()
        self.assertIn("1 jobs weren't run", told)
        self.assertEqual(len(self.jobs("out")), 1)
        self.assertEqual(self.made("town.obj")[0], 0)
        self.assert_whole(changed)
        self.cut(REGION, 4096)
        self.assertEqual(self.todo(), [], "what ended late is of use once its script is back")
        self.assert_whole(REGION)

    @unittest.skipUnless(shutil.which("make"), "make isn't there")
    def test_two_runs_of_one_job_at_once(self):
        self.cut(REGION, 4096)
        held = self.held()
        both = [self.make(REGION_HELD=str(held)) for _ in range(2)]
        wait(lambda: len(self.jobs("part")) == 2)
        held.unlink()
        self.assertEqual([(making.communicate(), making.returncode)[1] for making in both], [0, 0])
        self.assertEqual(len(self.jobs("out")), 1)
        self.assertEqual(self.jobs("part"), [])

    def test_a_job_that_is_killed(self):
        program = self.program(WITHOUT_DIE.format(STAND_IN))
        self.cut([*REGION, "lot die 1 90 0 1 1 wall"], 1, program=program)
        done = subprocess.run(
            ["sh", self.folder / "job", *self.todo()], capture_output=True, text=True, env=self.environment()
        )
        self.assertEqual(done.returncode, 137)
        self.assertIn(
            f"job {self.todo()[0]} ended with status 137: run it again, with more memory where that was wanting\n",
            done.stderr,
        )
        self.assertEqual((len(self.todo()), self.jobs("part")), (1, []))
        self.assert_refused(self.call("join", self.folder), "1 jobs weren't run")

    def test_a_job_whose_half_written_output_is_taken_away_is_to_be_run_again(self):
        self.cut(REGION, 4096)
        held = self.held()
        running = subprocess.Popen(
            ["sh", self.folder / "job", *self.todo()],
            stderr=subprocess.PIPE,
            text=True,
            env=self.environment(REGION_HELD=str(held)),
        )
        wait(lambda: self.jobs("part"))
        self.assertEqual(self.call("tidy", self.folder)[1], f"{self.folder}: 1 files taken away\n")
        held.unlink()
        self.assertIn("run it again", running.communicate()[1])
        self.assertNotEqual(running.returncode, 0)
        self.assertEqual((len(self.todo()), self.jobs("part"), self.jobs("out")), (1, [], []))

    def test_a_job_that_runs_out_of_memory(self):
        """It has printed something by then, and that is gone."""
        self.cut(REGION, 4096)
        self.put_program("echo '# ok'\nulimit -v 40000\nexec python3 -c 'kept = b\"x\" * (300 << 20)' 2>/dev/null\n")
        done = subprocess.run(
            ["sh", self.folder / "job", *self.todo()], capture_output=True, text=True, env=self.environment()
        )
        self.assertNotEqual(done.returncode, 0)
        self.assertIn("run it again, with more memory", done.stderr)
        self.assertEqual((len(self.todo()), self.jobs("part"), self.jobs("out")), (1, [], []))

    def put_program(self, lines):
        """Puts another program in the place of the one of the cut, for the script `job`, too."""
        (old,) = self.folder.glob("program-*")
        old.write_text("#!/bin/sh\n" + lines)
        name = f"program-{hashlib.sha256(old.read_bytes()).hexdigest()[:20]}"
        old.rename(self.folder / name)
        job = self.folder / "job"
        job.write_text(job.read_text().replace(old.name, name))

    def job(self):
        """Runs all jobs, and gives what the script tells."""
        return subprocess.run(
            ["sh", self.folder / "job", *self.todo()], capture_output=True, text=True, env=self.environment()
        )

    def test_a_job_whose_output_can_not_be_written_or_that_wants_memory(self):
        self.cut(REGION, 4096)
        for status, told in ((4, "the disk is full or closed: make room"), (6, "memory was wanting: run it again")):
            self.put_program(f"exit {status}\n")
            self.assertIn(told, self.job().stderr)

    def test_a_job_by_another_program_than_that_of_the_cut(self):
        self.cut(REGION, 4096)
        (program,) = self.folder.glob("program-*")
        program.write_text("#!/bin/sh\n")
        done = self.job()
        self.assertEqual((done.returncode, self.jobs("out")), (1, []))
        self.assertEqual(done.stderr, f"{program.name} isn't the program of the cut: cut the script again\n")

    def test_a_process_of_a_join_or_of_tiles_that_is_killed(self):
        """It isn't waited for, and nothing half written stays."""
        self.cut(REGION, 1)
        self.run_jobs()
        for word, module, name in (("join", joining, "write_piece"), ("tiles", tiles, "write_glb")):
            with patch.object(module, name, killed):
                self.assertEqual(
                    self.call(word, self.folder, "--workers", "2")[::2],
                    (
                        1,
                        "districts: a process was killed, perhaps for want of memory: call it again with fewer --workers\n",
                    ),
                )
            made = [path.name for path in self.folder.rglob("*") if "town" in path.name or path.name == "tileset.json"]
            self.assertEqual(made, [])
        self.assert_whole(REGION)

    def test_processes_that_are_interrupted_say_nothing(self):
        done = subprocess.run(
            [sys.executable, "-c", INTERRUPTED, TOP / "tools"],
            capture_output=True,
            text=True,
            start_new_session=True,
            timeout=300,
        )
        self.assertEqual((done.returncode, done.stdout, done.stderr), (130, "", ""))

    def test_a_pool_that_sees_no_folder(self):
        self.cut(REACHING, 1, "--decimals", "2")
        pool = [sys.executable, TOP / "examples" / "engines" / "pool.py", self.folder]
        done = subprocess.run(pool, capture_output=True, text=True, env=self.environment())
        self.assertEqual(done.returncode, 0, done.stderr)
        self.assert_whole(REACHING, STAND_IN, "--decimals", "2")

    def test_a_job_is_named_by_its_digest_as_the_page_says(self):
        self.cut(REACHING, 1, "--decimals", "2")
        (program,) = self.folder.glob("program-*")
        self.assertEqual(program.name, f"program-{hashlib.sha256(program.read_bytes()).hexdigest()[:20]}")
        for path in self.jobs():
            data = b"".join(part.encode() + b"\0" for part in [program.name, "--decimals", "2"]) + path.read_bytes()
            self.assertEqual(path.stem, hashlib.sha256(data).hexdigest()[:20])

    def by_slurm(self, **environment):
        (self.top / "sbatch").write_text(SBATCH)
        (self.top / "sbatch").chmod(0o755)
        done = subprocess.run(
            ["sh", self.folder / "slurm", "--mem=1G"],
            capture_output=True,
            text=True,
            env=self.environment(**environment),
        )
        return done.returncode, done.stdout, (self.folder / "slurm.log").read_text()

    def test_slurm_runs_rounds_and_joins(self):
        self.cut(REACHING, 1)
        status, said, log = self.by_slurm(THEN="join")
        self.assertEqual(
            (status, said), (0, "3 jobs in array 17 of 1 tasks, then check 17; its end is told in slurm.log\n")
        )
        self.assertIn("1 jobs to run; run them, and check again\n", log)
        self.assertIn("\n1 jobs in array 17 of 1 tasks", log)
        self.assert_whole(REACHING)

    def test_slurm_makes_tiles_by_an_array_of_their_own(self):
        self.cut(REGION, 1)
        _, _, log = self.by_slurm(THEN="tiles", EACH="2")
        self.assertIn("3 tiles in array 17 of 2 tasks, then tileset 17", log)
        self.assertIn(str(self.folder / "tiles" / "tileset.json"), log.split("\n"))
        self.assertEqual(self.call("todo", self.folder, "--tiles")[1], "")

    @unittest.skipUnless(shutil.which("make"), "make isn't there")
    def test_make_makes_tiles_as_jobs(self):
        self.cut(REGION, 1)
        status, _, told = self.made("tiles/tileset.json")
        self.assertEqual((status, len(list(self.folder.glob("tiles/*.glb")))), (0, 3), told)
        before = (self.folder / "tiles" / "tileset.json").read_bytes()
        shutil.rmtree(self.folder / "tiles")
        self.call("tiles", self.folder, "--workers", "1")
        self.assertEqual((self.folder / "tiles" / "tileset.json").read_bytes(), before)
        self.cut([*REGION[:-1], "lot c 3 20 0 4 4 wall"], 1)
        self.assertEqual(self.made("tiles/tileset.json")[0], 0)
        self.call("tidy", self.folder)
        self.assertEqual(len(list(self.folder.glob("tiles/*.glb"))), 3)

    def test_slurm_goes_on_after_a_task_that_was_killed(self):
        self.cut(REGION, 1)
        _, _, log = self.by_slurm(FAIL="yes", EACH="1")
        self.assertIn("1 jobs weren't run", log)
        self.assertEqual(len(self.todo()), 1)
        _, said, log = self.by_slurm()
        self.assertTrue(said.startswith("1 jobs in array"))
        self.assertEqual(
            (self.todo(), log.split("\n")[-2]), ([], f"{self.folder}: lots 3 shapes 6 instances 3 faults 1")
        )
        self.assertEqual(self.by_slurm()[1], "check 17; its end is told in slurm.log\n")


if __name__ == "__main__":
    unittest.main()
