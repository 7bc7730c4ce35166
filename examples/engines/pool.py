#!/usr/bin/env python3
"""Runs the jobs of a region by a pool of processes, and joins the town. A job is bytes in and bytes out, so that Ray, Dask or
Spark can take the place of the pool: no worker sees the folder.

usage: examples/engines/pool.py FOLDER        a folder that `tools/districts cut` wrote
"""
import json
import multiprocessing
import os
import subprocess
import sys
import tempfile
from hashlib import sha256
from pathlib import Path
from typing import List, Tuple

AGAIN = 3  # the status of a check that leaves jobs to run


def job(given: Tuple[str, bytes, bytes, List[str]]) -> Tuple[str, bytes]:
    """The output of a job: what the program prints of the script, and a last line with the digests of both."""
    name, script, program, words = given
    with tempfile.TemporaryDirectory() as folder:
        path = Path(folder, "program")
        path.write_bytes(program)
        path.chmod(0o755)
        out = subprocess.run([path, *words], input=script, stdout=subprocess.PIPE, check=True).stdout
    return name, out + f"# job {name} {sha256(out).hexdigest()} {sha256(program).hexdigest()}\n".encode()


def run_round(folder: Path, pool: "multiprocessing.pool.Pool") -> int:
    """Runs the jobs that weren't run, and joins; gives the status of the join."""
    plan = json.loads((folder / "plan.json").read_bytes())
    program, words = (folder / plan["program"]).read_bytes(), plan["options"][3]
    names = subprocess.run(
        ["sh", folder / "tool", "todo"], stdout=subprocess.PIPE, check=True, text=True
    ).stdout.split()
    given = [(name, (folder / "jobs" / f"{name}.cga").read_bytes(), program, words) for name in names]
    for name, out in pool.imap_unordered(job, given):
        part = folder / "jobs" / f"{name}.{os.getpid()}.part"
        part.write_bytes(out)
        part.replace(folder / "jobs" / f"{name}.out")
    return subprocess.run(["sh", folder / "tool", "join"]).returncode


def main(folder: Path) -> int:
    with multiprocessing.Pool() as pool:
        status = AGAIN
        while status == AGAIN:
            status = run_round(folder, pool)
    return status


if __name__ == "__main__":
    if len(sys.argv) != 2 or not Path(sys.argv[1], "plan.json").is_file():
        sys.exit("usage: examples/engines/pool.py FOLDER, which `tools/districts cut` wrote")
    sys.exit(main(Path(sys.argv[1])))
