"""Proves and builds the programs, one call at a time, and says how far it is."""
import os
import re
import subprocess
import time
from contextlib import suppress

from .begun import USUAL, begun, fail, heeding_signals, last_lines, need_rt, so_far, take
from .sources import say

PAUSE = 0.5
AT_WORK = re.compile(r"^rt: (?:chose --jobs .* for (cga_[a-z_]*)$|waiting for another rt)", re.MULTILINE)
SILENCE = 20  # seconds after which it says again where it is


def at_work(log, crates):
    """What the log tells of last. It may not be there yet, or not be readable: that is no end."""
    try:
        with open(log, encoding="utf-8", errors="replace") as file:
            told = [*AT_WORK.finditer(file.read())]
    except OSError:
        told = []
    crate = told[-1].group(1) if told else None
    if told and not crate:
        return "another rt works here, and this one waits for it"
    if crate in crates:
        return f"crate {crates.index(crate) + 1} of {len(crates)}, {crate}"
    return "a pass over all sources goes first"


def follow(job, log, crates):
    """Says where the job is, whenever that changes, and each 20 seconds."""
    was, told = None, 0
    while job.poll() is None:
        at = at_work(log, crates)
        if at != was or time.monotonic() >= told + SILENCE:
            say(f"{at}; {so_far()} so far")
            was, told = at, time.monotonic()
        with suppress(subprocess.TimeoutExpired):
            job.wait(PAUSE)


def build(program):
    """Builds it, and keeps the sums of its sources, which are those at the beginning."""
    crates = program.crates()
    stamps, log = program.stamps(crates), os.path.join(program.out, "prove.log")
    sums = program.sums(stamps)
    os.makedirs(program.out, exist_ok=True)
    say(f"proving and building {program.name}, once; this takes {USUAL}; the log is {log}")
    with open(log, "wb") as said:  # it is there before the build begins, which goes on beside the next line
        with begun(["rt", "run"], cwd=program.folder, stdin=subprocess.DEVNULL, stdout=said, stderr=said) as job:
            follow(job, log, [*crates])
    if job.returncode or not os.access(program.path, os.X_OK):
        say(f"{program.name} was not built; the end of {log}:")
        last_lines(log)
        fail("mend this, and call ./cga_city --prove again; what was proved is kept")
    if program.stamps(crates) != stamps or program.crates() != crates:
        fail(
            "a source changed while the program was built, so nobody knows of which it is made: call ./cga_city --prove again"
        )
    program.keep(crates.values(), {**sums, **program.sums(program.own())})


def prove_all(programs):
    os.makedirs(programs[0].out, exist_ok=True)
    with heeding_signals(), open(os.path.join(programs[0].out, "prove.lock"), "w") as lock:
        take(lock, "another call proves and builds the programs; waiting for it")
        for program in programs:
            if program.fault():
                need_rt()
                build(program)
    say(
        f"proved and built: {', '.join(program.name for program in programs)}; each call runs {programs[0].name} from now on ({so_far()})"
    )
