"""What runs of cga_hulls tell of some lots: of each the box of all its shapes, and where jobs have rings the digest of its steps.
A run takes a process of its own, since boxes are told at the end of a script. Some processes wait with the head of the script
read, so that one lot's edit doesn't wait for a start."""
import os
import subprocess
from collections import deque
from typing import Deque, Dict, Iterator, List, NamedTuple, Optional, Sequence, Tuple

from .call import Refused
from .grid import Box, number
from .many_runs import outputs
from .pipe import write_to
from .script import text_of
from .sources import frugal
from .steps import digest_of, sizes, steps_by_lot

Process = "subprocess.Popen[bytes]"
TRIES = 3  # of a run whose process is killed
MANY = 16  # parts that are told of at once: from here on shells begin the runs
BEGINNING = ["version 2", "quiet", "city"]


class Told(NamedTuple):
    """Of a lot: its box, the digest of its steps, how many shapes it has, and how many of these are instances. The line is that
    of the box."""

    box: Box
    digest: str = ""
    shapes: int = 0
    instances: int = 0
    line: str = ""


class NotTold(Exception):
    """The program refused the lots together, with the cause."""


class Asked(NamedTuple):
    """The lines of some lots, and what was told of them before, if anything was."""

    lots: Sequence[str]
    before: Dict[str, Told]


def box_of(line: str) -> Box:
    """The box in a line `# hull LOT ..`, which tells its least corner first."""
    x, y, z, x_end, y_end, z_end = map(number, line.split(" ")[3:])
    return x, x_end, z, z_end, y, y_end


def told_of(line: str, steps: Sequence[bytes], before: Optional[Told]) -> Told:
    """What is told of a lot; where that is what was told before, this is it."""
    digest = digest_of(steps) if steps else ""
    if before and before.line == line and before.digest == digest:
        return before
    return Told(box_of(line), digest, *sizes(steps), line)


class Boxes:
    """Runs by one program, for jobs with rings or without them."""

    def __init__(self, program: str, has_steps: bool, workers: int = 0) -> None:
        self.program, self.has_steps = program, has_steps
        self.workers = workers or os.cpu_count() or 1
        self.head: List[str] = []
        self.waiting: Deque[Process] = deque()

    def set_head(self, head: List[str]) -> None:
        """From now on runs are of these rules."""
        if head != self.head:
            self.close()
            self.head = head

    def begin(self) -> Process:
        process = subprocess.Popen([self.program], stdin=subprocess.PIPE, stdout=subprocess.PIPE, env=frugal())
        write_to(process, text_of(BEGINNING + self.head))
        return process

    def prepare(self) -> None:
        """Some processes wait for lots from now on."""
        while len(self.waiting) < self.workers:
            self.waiting.append(self.begin())

    def close(self) -> None:
        while self.waiting:
            end(self.waiting.popleft())

    def run(self, parts: Sequence[Asked]) -> Iterator[Dict[str, Told]]:
        """What is told of the lots of each part, by name."""
        done = 0
        if len(parts) > MANY:
            scripts = [text_of([*BEGINNING, *self.head, *self.lines(asked.lots)]) for asked in parts]
            for done, out in enumerate(outputs(self.program, scripts, self.workers), 1):
                yield self.told(out, parts[done - 1])
        yield from self.run_few(parts[done:])

    def run_few(self, parts: Sequence[Asked]) -> Iterator[Dict[str, Told]]:
        """The same by processes that this one begins; some runs go on at once."""
        running: Deque[Tuple[Process, Asked]] = deque()
        try:
            for asked in parts:
                running.append((self.fed(asked.lots), asked))
                if len(running) >= self.workers:
                    yield self.read(*running.popleft())
            if parts:
                self.prepare()  # while the runs go on
            while running:
                yield self.read(*running.popleft())
        finally:
            for process, _ in running:
                end(process)

    def fed(self, lots: Sequence[str]) -> Process:
        process = self.waiting.popleft() if self.waiting else self.begin()
        write_to(process, text_of(self.lines(lots)))
        close_end(process)
        return process

    def lines(self, lots: Sequence[str]) -> List[str]:
        """What follows the head."""
        return [*lots, "end", *["trace"] * self.has_steps]

    def read(self, process: Process, asked: Asked) -> Dict[str, Told]:
        for _ in range(TRIES):
            with process:
                out = process.stdout.read()  # type: ignore[union-attr]
            if process.returncode == 0:
                return self.told(out, asked)
            process = self.fed(asked.lots)
        end(process)
        raise Refused(f"{self.program} ended with status {process.returncode} at the lots of one job")

    def told(self, out: bytes, asked: Asked) -> Dict[str, Told]:
        lines = out.split(b"\n")[:-1]
        behind = len(lines) - len(asked.lots)
        hulls = [line.decode("latin-1") for line in lines[behind:] if line.startswith(b"# hull ")]
        if b"\n# refused " in out:
            raise NotTold(next(line.decode("latin-1") for line in lines if line.startswith(b"# refused ")))
        if len(hulls) != len(asked.lots):
            raise Refused(f"{self.program} tells no boxes: name one that does by --hulls")
        steps = steps_by_lot(lines[2:behind]) if self.has_steps else {}
        named = ((line.split(" ", 3)[2], line) for line in hulls)
        return {name: told_of(line, steps.get(name.encode(), []), asked.before.get(name)) for name, line in named}


def close_end(process: Process) -> None:
    try:
        process.stdin.close()  # type: ignore[union-attr]
    except OSError:
        pass


def end(process: Process) -> None:
    process.kill()
    close_end(process)
    process.stdout.close()  # type: ignore[union-attr]
    process.wait()
