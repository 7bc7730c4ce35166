"""What a check compares: outputs that changed since the last check that passed, and those that these may have to do with."""
from pathlib import Path
from typing import Any, Dict, List, Tuple

from .checking import sums
from .kept_checks import KeptChecks, record_of
from .rounds import outcome
from .survey import Survey

FEW = 200  # jobs that are compared with those of the last check; where more changed, all are compared


class Compared:
    """`told` has what was read of outputs, by the jobs' names. With `is_whole` each output is read as a whole."""

    def __init__(self, folder: Path, plan: Any, is_whole: bool) -> None:
        self.folder, self.plan, self.jobs = folder, plan, plan.drawn()
        self.kept = KeptChecks(folder, plan)
        changed = len(self.jobs) - len(self.kept.records)
        if is_whole or changed > FEW or plan.asks() and plan.is_turned():
            self.kept.records.clear()
        self.told: Dict[str, Any] = {}
        self.read([job for job in self.jobs if job.name not in self.kept.records], is_whole)
        self.changed = set(self.told)

    def read(self, jobs: List[Any], is_whole: bool = False) -> None:
        """Refused unless each job was run and is taken."""
        survey = Survey(self.folder, self.plan, jobs, is_whole)
        survey.demand()
        self.told.update(survey.told)

    def outcome(self) -> str:
        """A sentence of what was found, which is written down for the next cut, or none."""
        jobs = self.jobs
        if self.plan.asks():
            jobs = self.kept.near(jobs, self.told)
            self.read([job for job in jobs if job.name not in self.told])
        else:
            jobs = [job for job in jobs if job.name in self.changed]
        found, counts = outcome(self.folder, self.plan, jobs, [self.told[job.name] for job in jobs])
        for job, some in zip(jobs, counts):
            if job.name in self.changed:
                self.kept.records[job.name] = record_of(self.kept.path(job), job, self.told[job.name], some)
        return found

    def sums(self) -> Tuple[Dict[str, int], Dict[str, List[int]]]:
        """The counts of the town, and its bill."""
        return sums([self.kept.records[job.name] for job in self.jobs])

    def keep(self) -> None:
        """Only a later check is quicker by it, so a disk without room refuses nothing."""
        try:
            self.kept.save(self.jobs)
        except OSError:
            pass
