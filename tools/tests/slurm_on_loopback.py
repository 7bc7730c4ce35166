#!/usr/bin/env python3
"""A region by a real Slurm of two nodes on this machine: a task that is killed, one that runs out of memory, and a node that
goes down; in the end the region is what one run prints. Then two edits by make. It says so and ends well where Slurm isn't
installed.

usage: tools/tests/slurm_on_loopback.py [--program PATH]      as root, after `apt-get install slurm-wlm munge`

It takes a minute or two where nothing else runs. PATH is that of crates/cga_hulls; without it a stand-in runs the jobs.
"""
import argparse
import os
import shlex
import shutil
import signal
import socket
import subprocess
import sys
import tempfile
import time
from contextlib import contextmanager, suppress
from pathlib import Path

TESTS = Path(__file__).resolve().parent
sys.path[:0] = [str(TESTS), str(TESTS.parent)]

from regions import STAND_IN, TOP, asking, whole  # noqa: E402

NEEDED = ["munged", "slurmctld", "slurmd", "sbatch", "squeue", "scontrol"]
CONFIG = """\
ClusterName=loop
SlurmctldHost={host}(127.0.0.1)
SlurmctldPort=16817
SlurmUser=root
SlurmdUser=root
AuthType=auth/munge
AuthInfo=socket={folder}/munge.socket
StateSaveLocation={folder}/state
SlurmdSpoolDir={folder}/spool.%n
SlurmctldPidFile={folder}/slurmctld.pid
SlurmdPidFile={folder}/slurmd.%n.pid
SlurmctldLogFile={folder}/slurmctld.log
SlurmdLogFile={folder}/slurmd.%n.log
ProctrackType=proctrack/linuxproc
TaskPlugin=task/none
SwitchType=switch/none
MpiDefault=none
SelectType=select/cons_tres
SelectTypeParameters=CR_CPU_Memory
SlurmdParameters=config_overrides
JobAcctGatherType=jobacct_gather/linux
JobAcctGatherFrequency=1
JobAcctGatherParams=OverMemoryKill
SchedulerParameters=sched_interval=1
ReturnToService=2
SlurmdTimeout=10
JobRequeue=1
KillWait=1
MaxArraySize=5
NodeName=one NodeHostname={host} NodeAddr=127.0.0.1 Port=16818 CPUs=2 RealMemory=2000
NodeName=two NodeHostname={host} NodeAddr=127.0.0.1 Port=16819 CPUs=2 RealMemory=2000
PartitionName=all Nodes=ALL Default=YES MaxTime=10 State=UP
"""
# takes a while, so that tasks can be killed, and 300 MB where its script has the lot `heavy`; then the program runs
PROGRAM = """\
#!/usr/bin/env python3
import subprocess, sys, time
text = sys.stdin.buffer.read()
kept = b"x" * (300 << 20) if b"lot heavy" in text else b""
time.sleep(4 if b"lot heavy" in text or b"lot slow" in text else 0.2)
sys.exit(subprocess.run([{!r}], input=text).returncode)
"""
REACHING = ["lot a 6 0 0 4 4 wall", "lot b 1 10 0 4 4 wall"]
LOTS = (
    REACHING
    + [f"lot l{k} 1 {20 * k} 50 4 4 wall" for k in range(9)]
    + ["lot heavy 1 0 90 4 4 wall", "lot slow 1 50 90 4 4 wall"]
)


def real_lines():
    """Houses that ask, two of which see a shape of a third from afar."""
    lines = (TESTS / "districts" / "far_shape_of_a_ghost.cga").read_text().split("\n")
    names = ["lot a 1 0 0 8 8 ghost", "lot b 1 100 0 8 8 home"] + [f"lot l{k} 1 {20 * k} 50 8 8 home" for k in range(9)]
    return lines[: lines.index("end") + 1] + names + ["lot heavy 1 0 90 8 8 home", "lot slow 1 50 90 8 8 home"]


EACH = 4  # jobs a task


class Cluster:
    def __init__(self, folder):
        self.folder, self.started = folder, {}
        os.environ["SLURM_CONF"] = str(folder / "slurm.conf")
        (folder / "slurm.conf").write_text(CONFIG.format(host=socket.gethostname(), folder=folder))
        (folder / "state").mkdir()
        (folder / "munge.key").write_bytes(os.urandom(1024))
        (folder / "munge.key").chmod(0o400)

    def begin(self, name, *words):
        log = (self.folder / f"{name}.out").open("w")
        self.started[name] = subprocess.Popen(words, stdout=log, stderr=subprocess.STDOUT, start_new_session=True)

    def up(self):
        self.begin(
            "munged",
            "munged",
            "--foreground",
            "--force",
            f"--key-file={self.folder}/munge.key",
            f"--socket={self.folder}/munge.socket",
            f"--pid-file={self.folder}/munged.pid",
            f"--log-file={self.folder}/munged.log",
            f"--seed-file={self.folder}/munged.seed",
        )
        wait(lambda: (self.folder / "munge.socket").exists(), "munged to answer")
        self.begin("slurmctld", "slurmctld", "-D")
        for node in ("one", "two"):
            self.node_up(node)
        wait(lambda: said("sinfo", "-h", "-o", "%T").split() == ["idle"], "both nodes to be idle")

    def node_up(self, node):
        self.begin(node, "slurmd", "-D", "-N", node)

    def node_down(self, node):
        """The node goes with all that runs there: what it began is in sessions of its own."""
        daemon = self.started.pop(node)
        daemon.kill()
        daemon.wait()
        for process in Path("/proc").iterdir():
            if process.name.isdigit() and is_step(process, self.folder, node):
                with suppress(ProcessLookupError):
                    os.kill(int(process.name), signal.SIGKILL)

    def down(self):
        for node in [name for name in self.started if name in ("one", "two")]:
            self.node_down(node)
        for process in reversed(list(self.started.values())):
            process.terminate()
            process.wait()


def is_step(process, folder, node):
    """Whether a process is one that this node began: its script works in the node's spool, and what watches it writes the node's log."""
    spool, log = os.fsencode(folder / f"spool.{node}"), folder / f"slurmd.{node}.log"
    try:
        return spool in (process / "cmdline").read_bytes() + (process / "environ").read_bytes() or any(
            Path(os.readlink(opened)) == log for opened in (process / "fd").iterdir()
        )
    except OSError:
        return False


def said(*words):
    return subprocess.run(words, stdout=subprocess.PIPE, stderr=subprocess.DEVNULL, text=True).stdout


def wait(is_so, what, seconds=300):
    end = time.monotonic() + seconds
    while not is_so():
        if time.monotonic() > end:
            raise SystemExit(f"waited {seconds} seconds for {what}")
        time.sleep(0.3)


def ended():
    return not said("squeue", "-h").strip()


class Region:
    def __init__(self, top, program, lines):
        self.top, self.folder, self.program, self.lines = top, top / "a region", program, lines
        (top / "program").write_text(PROGRAM.format(program))
        (top / "program").chmod(0o755)
        self.cut()

    def cut(self):
        (self.top / "region.cga").write_text("\n".join(self.lines) + "\n")
        print(
            self.call("cut", self.top / "region.cga", self.folder, "--lots", "1", "--program", self.top / "program"),
            end="",
        )

    def call(self, word, *words):
        return subprocess.run(
            [TOP / "tools" / "districts", word, *words], stdout=subprocess.PIPE, stderr=subprocess.STDOUT, text=True
        ).stdout

    def todo(self):
        return self.call("todo", self.folder).split()

    def submit(self, *words, **environment):
        done = subprocess.run(
            ["sh", self.folder / "slurm", *words],
            stdout=subprocess.PIPE,
            text=True,
            env={**os.environ, "EACH": str(EACH), **environment},
            check=True,
        )
        print(done.stdout, end="")
        return done.stdout

    def is_joined(self):
        """Whether all jobs were run, and what is joined is what one run prints."""
        *town, plan = (self.folder / "town.obj").read_text().split("\n")[:-1]
        return self.todo() == [] and plan.startswith("# plan ") and town == whole(self.program, self.lines)[0]

    def job_of(self, lot):
        return next(path.stem for path in (self.folder / "jobs").glob("*.cga") if f"lot {lot} " in path.read_text())

    def task_of(self, lot):
        """The task that runs the job of this lot, once it runs."""
        found = []

        def runs():
            for line in said("squeue", "-h", "-r", "-t", "R", "-o", "%i %N").splitlines():
                task, node = line.split()
                for part in (self.folder / "jobs").glob(f"{self.job_of(lot)}.*.part"):
                    found[:] = [task, node] if self.is_of(task, lot) else found
            return found

        wait(runs, f"the job of {lot} to run")
        return found

    def is_of(self, task, lot):
        listed = sorted(self.folder.glob("todo-*"), key=lambda path: path.stat().st_mtime)[-1].read_text().split()
        tasks = -(-len(listed) // EACH)
        number = int(task.partition("_")[2] or 0)
        return number and self.job_of(lot) in [
            name for at, name in enumerate(listed, 1) if at % tasks == number % tasks
        ]


def killed(region):
    region.submit("--mem=100M")
    task, _ = region.task_of("slow")
    said("scancel", task)
    wait(ended, "the queue to be empty")
    log = (region.folder / "slurm.log").read_text()
    expect("jobs weren't run" in log, f"the check names what is missing: {log}")
    missing = region.todo()
    expect(region.job_of("slow") in missing, "the job that was killed wasn't run")
    expect(region.job_of("heavy") in missing, "nor the one that ran out of memory")
    expect(len(region.todo()) < 10, "others were")


def node_down(region, cluster):
    region.submit("--mem=600M", THEN="join")
    _, node = region.task_of("slow")
    cluster.node_down(node)
    print(f"node {node} goes down")
    wait(lambda: "down" in said("sinfo", "-h", "-n", node, "-o", "%T"), f"Slurm to see that {node} is down")
    wait(ended, "the queue to be empty", 900)
    cluster.node_up(node)


def by_make(region):
    """Each job is a step of Slurm, and then make itself is a job. Each time one lot is another."""
    make = ["make", "-s", "-j", "2", "-C", region.folder, "town.obj"]
    in_job = ["sbatch", "--wait", "-c", "2", "--output=/dev/null", "--wrap", shlex.join(map(str, make))]
    for lot, words, told in (
        ("l1", [*make, "RUN=srun -Q -n 1 --mem=600M"], "make whose jobs are steps"),
        ("l2", in_job, "a job that is make"),
    ):
        region.lines = [line.replace(f"lot {lot} 1 ", f"lot {lot} 2 ") for line in region.lines]
        region.cut()
        done = subprocess.run(words, stdout=subprocess.PIPE, stderr=subprocess.STDOUT, text=True)
        expect(done.returncode == 0 and region.is_joined(), f"what {told} joins is what one run prints: {done.stdout}")


def tiles(region):
    region.submit("--mem=600M", THEN="tiles")
    wait(ended, "the queue to be empty", 900)
    left = region.call("todo", region.folder, "--tiles")
    made = (region.folder / "tiles" / "tileset.json").exists()
    expect(made and left == "", f"each tile was made by a job: {left}")


def expect(is_so, what):
    if not is_so:
        raise SystemExit(f"failed: {what}")
    print(f"ok: {what.partition(':')[0]}")


def is_here():
    """Whether Slurm is here and this is root; if not, what is missing is said."""
    lacking = [name for name in NEEDED if not shutil.which(name)]
    if lacking or os.geteuid():
        lacks = ", ".join(lacking) or "root"
        print(f"SKIPPED: {lacks} is missing: as root, after `apt-get install slurm-wlm munge`, this runs by Slurm")
        return False
    return True


@contextmanager
def cluster_up():
    """A cluster of two nodes in a folder of its own. Where something fails there, the queue, the nodes and the ends of the logs are
    printed."""
    with tempfile.TemporaryDirectory() as folder:
        Path(folder).chmod(0o755)
        cluster = Cluster(Path(folder))
        try:
            cluster.up()
            yield cluster
        except SystemExit:
            print(said("squeue", "-a"), said("sinfo", "-N"), sep="\n")
            for path in [*cluster.folder.rglob("slurm*.log"), *cluster.folder.glob("munge*.log")]:
                print(f"== the end of {path}:", *path.read_text(errors="replace").splitlines()[-8:], sep="\n")
            raise
        finally:
            cluster.down()


def main():
    known = argparse.ArgumentParser()
    known.add_argument("--program", type=os.path.abspath)
    program = known.parse_args().program
    if not is_here():
        return
    with cluster_up() as cluster:
        region = Region(cluster.folder, program or STAND_IN, real_lines() if program else asking(*LOTS))
        killed(region)
        node_down(region, cluster)
        if region.todo() or not (region.folder / "town.obj").exists():
            region.submit("--mem=600M", THEN="join")
            wait(ended, "the queue to be empty", 900)
        expect(region.is_joined(), "what is joined is what one run prints")
        by_make(region)
        tiles(region)


if __name__ == "__main__":
    main()
