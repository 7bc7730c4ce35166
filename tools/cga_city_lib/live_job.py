"""A job of a region that is kept: a cga_live that has the job's own lots and their neighbours. If the process is killed, another
one is begun in the state that was there, and what it was asked is asked again."""
import os
import subprocess
from itertools import islice
from typing import Dict, List, NamedTuple, Optional, Sequence, Set

from .call import Refused
from .script import text_of
from .sources import frugal

NOBODY = f"no_lot_{os.urandom(8).hex()}"  # no lot has this name, and no line from outside
FENCE = f"print {NOBODY}"  # it is refused: what stands before its reply is of the lines before it
END = f"# refused NoLot {NOBODY}\n".encode()
LONGEST = 1 << 14  # bytes of lines that are sent while nobody reads: a pipe takes more
TRIES = 3  # of a step whose process is killed


class Step(NamedTuple):
    """Lines for a job, what the job is to have behind them, and the lots whose changes are told."""

    lines: List[str]
    head: List[str]
    lots: Dict[str, str]
    own: Set[str]


class Answer(NamedTuple):
    """The replies, and the lines of own lots' instances that went, and that came."""

    replies: List[str]
    gone: List[bytes]
    come: List[bytes]

    def refusal(self) -> str:
        return next((reply for reply in self.replies if reply.startswith("# refused ")), "")


class Ended(Exception):
    """The process has ended."""


def city(head: List[str], lots: Dict[str, str]) -> List[str]:
    """The block that sets a job."""
    return ["city", *head, *lots.values(), "end"]


def first_step(dressed: List[str], head: List[str], lots: Dict[str, str], own: Set[str]) -> Step:
    """The step of a new process."""
    return Step(["version 2", *dressed, *city(head, lots)], head, lots, own)


class LiveJob:
    """`dressed` is the lines of assets and dresses, which all jobs have; `lots` those that the process has, by name."""

    def __init__(self, words: Sequence[str], head: List[str], dressed: List[str]) -> None:
        self.words, self.dressed, self.head = words, dressed, head
        self.lots: Dict[str, str] = {}
        self.own: Set[str] = set()
        self.step = Step([], head, {}, set())
        self.told: Optional[Set[bytes]] = None  # the lots of which lines are taken; None where no others come
        self.is_new = True
        self.begin()

    def begin(self) -> None:
        self.process = subprocess.Popen(
            self.words, stdin=subprocess.PIPE, stdout=subprocess.PIPE, env=frugal(), bufsize=1 << 16
        )

    def to(self, lines: List[str], lots: Dict[str, str], own: Set[str]) -> Step:
        """A step by these lines, or by one block where they are many."""
        is_long = sum(map(len, lines)) > LONGEST
        return Step(city(self.head, lots) if is_long else lines, self.head, lots, own)

    def send(self, step: Step) -> None:
        self.step = step
        self.told = None if step.own >= step.lots.keys() | self.lots.keys() else {name.encode() for name in step.own}
        try:
            self.process.stdin.write(text_of([*step.lines, FENCE]))  # type: ignore[union-attr]
            self.process.stdin.flush()  # type: ignore[union-attr]
        except OSError:
            pass  # it has ended, which is read

    def take(self) -> Answer:
        """The answer to what was sent. An accepted step is what the job has from then on."""
        answer = self.answered()
        if not answer.refusal():
            self.head, self.lots, self.own, self.is_new = self.step.head, self.step.lots, self.step.own, False
        return answer

    def answered(self) -> Answer:
        status = 0
        for _ in range(TRIES):
            try:
                return self.read()
            except Ended:
                status = self.process.wait()
                self.again()
        raise Refused(f"{' '.join(self.words)} ended {TRIES} times at the same lines, with status {status}")

    def again(self) -> None:
        """Another process, in the state that was there before the step, which is sent again."""
        step = self.step
        self.close()
        self.begin()
        if not self.is_new:
            self.send(first_step(self.dressed, self.head, self.lots, set()))
            try:
                self.read()
            except Ended:
                pass  # the next reading finds it out
        self.send(step)

    def read(self) -> Answer:
        replies: List[str] = []
        gone: List[bytes] = []
        come: List[bytes] = []
        for line in self.process.stdout:  # type: ignore[union-attr]
            if line == END:
                return Answer(replies, gone, come)
            if line.startswith(b"# changed "):
                went, came = map(int, line.split()[2:4])
                gone += self.own_lines(went)
                come += self.own_lines(came)
            else:
                replies.append(line.decode("latin-1").rstrip("\n"))
        raise Ended

    def own_lines(self, number: int) -> List[bytes]:
        """Those of own lots among so many lines of instances."""
        lines = list(islice(self.process.stdout, number))  # type: ignore[arg-type]
        if len(lines) < number:
            raise Ended
        if self.told is None:
            return lines
        return [line for line in lines if line[2 : line.index(b" ", 2)] in self.told]

    def ask(self, lines: List[str]) -> List[str]:
        """The replies to lines that edit nothing."""
        self.send(Step(lines, self.head, self.lots, set()))
        return self.answered().replies

    def close(self) -> None:
        self.process.kill()
        self.process.communicate()
