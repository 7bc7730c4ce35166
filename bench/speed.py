#!/usr/bin/env python3
"""Times programs on scripts of one kind of work each: the least user time of three runs, or the mean of ten short ones, and
the most memory. A program reads a script on standard input. Of work that is repeated in one script, the time of one is told,
and of reports the bytes of a second. Memory of less than some 20 MB is told as that, which this script itself takes. What a
program doesn't take has a dash. "Times plain" is how often a time is that of the plain program, which derives all again.
"""
import argparse
import os
import statistics
import subprocess
import sys
import tempfile
from collections import namedtuple
from pathlib import Path

from works import EDIT, REPORT, town, works

PLAIN = Path(__file__).resolve().parent / "plain" / "main.rs"
SHORT = 0.05  # seconds of which the user's part is known by few ticks of a clock
PLAIN_EDITS = 4  # so many are enough for a program that derives all again for each

Spent = namedtuple("Spent", "seconds megabytes")


def reply(program, script):
    return subprocess.run([program], input=script.encode(), stdout=subprocess.PIPE, check=True).stdout.decode()


def run(program, script):
    """What one run takes; None where it fails."""
    with tempfile.TemporaryFile() as text:
        text.write(script.encode())
        text.seek(0)
        started = subprocess.Popen([program], stdin=text, stdout=subprocess.DEVNULL, stderr=subprocess.DEVNULL)
        _, status, used = os.wait4(started.pid, 0)
        return None if status else Spent(used.ru_utime, used.ru_maxrss / 1000)


def least(program, script):
    """The least of three runs, or the mean of ten that are short."""
    runs = [run(program, script) for _ in range(3)]
    if None in runs:
        return None
    seconds = min(one.seconds for one in runs)
    if seconds < SHORT:
        runs += [run(program, script) for _ in range(7)]
        seconds = statistics.mean(one.seconds for one in runs)
    return Spent(seconds, max(one.megabytes for one in runs))


class Programs:
    """Those that are compared, of which the last may be the plain one."""

    def __init__(self, programs, plain):
        self.programs, self.plain = programs, plain
        self.all = programs + ([plain] if plain else [])
        self.begun = {}

    def before(self, program, script):
        """The seconds of what comes before a work, kept while works have it in common."""
        if script and (program, script) not in self.begun:
            self.begun = {key: seconds for key, seconds in self.begun.items() if key[1] == script}
            spent = least(program, script)
            self.begun[program, script] = spent.seconds if spent else 0
        return self.begun.get((program, script), 0)

    def one(self, program, work):
        """What a line of a work takes; None where the program doesn't take it."""
        lines = [line(lambda script: reply(self.all[0], script)) if callable(line) else line for line in work.lines]
        if program == self.plain and work.kind == EDIT:
            lines = lines[:PLAIN_EDITS]
        spent = least(program, work.before + "".join(lines))
        if spent is None:
            return None
        return Spent(max(0, spent.seconds - self.before(program, work.before)) / len(lines), spent.megabytes)

    def row(self, work):
        spent = {program: self.one(program, work) for program in self.all}
        plain = spent.get(self.plain)
        cells = [self.cell(program, work, spent[program], plain) for program in self.all]
        return f"| {work.told} | {' | '.join(cells)} |"

    def cell(self, program, work, spent, plain):
        """The time or the speed, how often it is the plain program's time, and the memory."""
        if spent is None:
            return "-"
        told = self.speed(program, work, spent.seconds) if work.kind == REPORT else time_told(spent.seconds)
        return f"{told}{'' if program == self.plain else ratio_told(spent, plain)}, {spent.megabytes:.0f} MB"

    def speed(self, program, work, seconds):
        size = len(reply(program, work.before + work.lines[0])) - len(reply(program, work.before))
        return f"{size / max(seconds, 1e-6) / 1e6:.0f} MB/s"


def time_told(seconds):
    if seconds >= 0.1:
        return f"{seconds:.2f} s"
    return f"{1000 * seconds:.{1 if seconds >= 0.001 else 2}f} ms"


def ratio_told(spent, plain):
    if not plain or not plain.seconds:
        return ""
    ratio = spent.seconds / plain.seconds
    return f", {ratio:.{0 if ratio >= 10 else 2 if ratio >= 0.1 else 4}f} times plain"


def compiled(folder):
    """The plain program, which replies to a town as the others do."""
    program = os.path.join(folder, "plain")
    subprocess.run(["rustc", "-O", "--edition", "2021", str(PLAIN), "-o", program], check=True)
    return program


def compared(programs):
    script = town(12) + "print\nstats\nattr bay = 2\nlot t3 9 37 0 12 9 lot\norder depth\nprint\nstats\ntrace\n"
    replies = {reply(program, script) for program in programs}
    if len(replies) > 1:
        sys.exit("the programs reply to a town in different ways")


def table(programs, words):
    names = [*words.programs, *(["plain"] if words.plain else [])]
    print("| Work | " + " | ".join(names) + " |\n|---|" + "---|" * len(names), flush=True)
    for work in works():
        if words.rows in work.told:
            print(programs.row(work), flush=True)


def main():
    parser = argparse.ArgumentParser(description=__doc__, formatter_class=argparse.RawDescriptionHelpFormatter)
    parser.add_argument("programs", nargs="*", metavar="PROGRAM")
    parser.add_argument(
        "--plain",
        action="store_true",
        help="beside them bench/plain, compiled by rustc: no proofs, and all derived again after each edit",
    )
    parser.add_argument("--rows", default="", metavar="TEXT", help="only works that have this in their names")
    words = parser.parse_args()
    if not words.programs and not words.plain:
        parser.error("no program is named")
    with tempfile.TemporaryDirectory() as folder:
        programs = Programs(words.programs, compiled(folder) if words.plain else None)
        compared(programs.all)
        table(programs, words)


if __name__ == "__main__":
    main()
