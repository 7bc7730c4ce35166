"""What an edit changed of a region that is kept: the lines of the instances that went and that came."""
from collections import Counter
from typing import Iterable, List

from .live_job import Answer


class Changes:
    """Where jobs took more than one step, some lines may have come and gone again: these are netted."""

    def __init__(self) -> None:
        self.gone: List[bytes] = []
        self.come: List[bytes] = []
        self.jobs: "Counter[object]" = Counter()  # how many steps each took

    def take(self, job: object, answer: Answer) -> None:
        self.jobs[job] += 1
        self.gone += answer.gone
        self.come += answer.come

    def text(self) -> bytes:
        """What cga_live tells; nothing where nothing changed."""
        gone, come = self.gone, self.come
        if self.jobs and max(self.jobs.values()) > 1:
            gone, come = without(b"- ", gone, come), without(b"+ ", come, gone)
        if not (gone or come):
            return b""
        return b"# changed %d %d\n" % (len(gone), len(come)) + b"".join(gone) + b"".join(come)


def bare(lines: Iterable[bytes]) -> "Counter[bytes]":
    """How often each instance is told, without its sign."""
    return Counter(line[2:] for line in lines)


def without(sign: bytes, lines: List[bytes], others: List[bytes]) -> List[bytes]:
    """The lines but for those that the others have, too."""
    return [sign + line for line in (bare(lines) - bare(others)).elements()]
