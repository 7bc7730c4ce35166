"""How far the jobs of a region are: which were run, which weren't, and whose output is refused."""
from shlex import quote

from .call import Refused
from .printed import AGAIN, Printed, demand_digest
from .progress import counted

SHOWN = 5  # refusals that are told at once


class Survey:
    def __init__(self, folder, plan, jobs, is_whole=False):
        """With `is_whole` each output is read as a whole, and its digest compared."""
        self.folder, self.told, self.to_run, self.refused = folder, {}, [], {}
        for job in counted(jobs, "jobs read"):
            printed = Printed(folder, plan, job)
            try:
                self.told[job.name] = printed.told()
                if is_whole:
                    demand_digest(printed.path, printed.path.read_bytes())
            except FileNotFoundError:
                self.to_run.append(job)
            except IsADirectoryError:
                self.refused[job.name] = f"{folder / 'jobs' / job.name}.out is a folder: {AGAIN}"
            except Refused as refusal:
                self.refused[job.name] = str(refusal)

    def reasons(self):
        """Why the jobs can't be taken together, one sentence a line."""
        reasons, folder = list(self.refused.values())[:SHOWN], quote(str(self.folder))
        if len(self.refused) > SHOWN:
            reasons.append(
                f"{len(self.refused) - SHOWN} more jobs are refused: tools/districts status {folder} names them"
            )
        if self.to_run:
            reasons.append(
                f"{len(self.to_run)} jobs weren't run, {self.to_run[0].name} the first: make -j 4 -C {folder}, or "
                f"sh {folder}/slurm"
            )
        return reasons

    def demand(self):
        """Refused unless each job was run and is taken."""
        if self.reasons():
            raise Refused("\n".join(self.reasons()))
