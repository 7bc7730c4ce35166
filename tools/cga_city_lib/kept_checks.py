"""What a check that passed knows of each output, so that the next one reads only what changed: two jobs whose outputs are those of
that check agree by it. An output is the same where its size, its time and its last line are, which has the digest of its bytes."""
import os
from pathlib import Path
from typing import Any, Dict, List, NamedTuple, Sequence, Tuple

from . import sealed
from .apart import around, touch

FILE = "checked.json"
FORM = 1
END = 256  # bytes in which the last line stands
YOUNG = (
    2 * 10**9
)  # a file that changed so little before the check, in billionths of a second, may change in the same moment again


class Record(NamedTuple):
    """Of an output: how many own lots its job has, its size, its time and its last line; and what it counts of the own lots, its bill,
    and the box around all that it tells, over one."""

    own: int
    size: int
    time: int
    end: str
    counts: Dict[str, int]
    bill: Dict[str, List[int]]
    one: int
    box: Sequence[int]


def stamp(path: str) -> Tuple[int, int, str]:
    """The size, the time and the last line of an output."""
    file = os.open(path, os.O_RDONLY)
    try:
        held = os.fstat(file)
        data = os.pread(file, END, max(0, held.st_size - END))
    finally:
        os.close(file)
    return held.st_size, held.st_mtime_ns, data[data.rfind(b"\n", 0, -1) + 1 :].decode("latin-1")


def record_of(path: str, job: Any, told: Any, counts: Dict[str, int]) -> Record:
    box = around(told.boxes) if told.boxes else ()
    return Record(
        job.own, *stamp(path), dict(counts), {name: list(some) for name, some in told.bill.items()}, told.one, box
    )


class KeptChecks:
    """The records of the last check that passed, of jobs whose outputs are the same."""

    def __init__(self, folder: Path, plan: Any) -> None:
        self.folder, self.rings = folder, plan.options.rings
        self.records: Dict[str, Record] = {}
        held = sealed.read(folder / FILE)
        if held and held[:2] == [FORM, self.rings]:
            before = (folder / FILE).stat().st_mtime_ns - YOUNG
            for job in plan.drawn():
                record = Record(*held[2][job.name]) if job.name in held[2] else None
                if record and self.is_same(job, record, before):
                    self.records[job.name] = record

    def is_same(self, job: Any, record: Record, before: int) -> bool:
        try:
            now = stamp(self.path(job))
        except OSError:
            return False
        return record.time < before and (record.own, now) == (job.own, (record.size, record.time, record.end))

    def path(self, job: Any) -> str:
        return f"{self.folder}/jobs/{job.name}.out"

    def near(self, jobs: Sequence[Any], told: Dict[str, Any]) -> List[Any]:
        """The jobs whose boxes may touch those of some jobs of which all is told, and these."""
        wholes = [(job.angle, told[job.name].one, around(told[job.name].boxes)) for job in jobs if job.name in told]
        return [
            job
            for job in jobs
            if job.name in told or any(touches(self.records[job.name], job.angle, whole) for whole in wholes)
        ]

    def save(self, jobs: Sequence[Any]) -> None:
        """Keeps the records of all jobs of a check that passed."""
        sealed.save(self.folder / FILE, [FORM, self.rings, {job.name: self.records[job.name] for job in jobs}])


def touches(record: Record, angle: float, whole: Tuple[float, int, Sequence[int]]) -> bool:
    other, one, box = whole
    return angle == other and touch([at * one for at in record.box], [at * record.one for at in box])
