"""The next round of a region: what a check found that keeps its jobs from being, together, the region."""
from pathlib import Path
from typing import Any, Dict, List, Sequence, Tuple

from .checking import touching_districts
from .findings import Findings, Lots
from .halo import Halos, own_counts, traced, unsettled
from .jobs import SCRIPT
from .region import Region


def outcome(folder: Path, plan: Any, jobs: Sequence[Any], told: Sequence[Any]) -> Tuple[str, List[Dict[str, int]]]:
    """A sentence of what was found between some jobs, which is written down for the next cut, or none; what each job counts of
    its own lots."""
    if plan.asks() and plan.options.rings:
        traces = traced(folder, plan, jobs)
        return grown(folder, plan, Halos(plan, jobs, told, traces)), own_counts(folder, plan, jobs, traces)
    return put_together(folder, plan, jobs, told) if plan.asks() else "", [job.counts for job in told]


def put_together(folder: Path, plan: Any, jobs: Sequence[Any], told: Sequence[Any]) -> str:
    """Lots of two jobs whose boxes touch stand in one job from now on."""
    pairs = touching_districts(plan, jobs, told)
    if not pairs:
        return ""
    findings = Findings(folder)
    findings.together += Lots(Region(folder / SCRIPT)).named(pairs)
    findings.save()
    return f"boxes of {len({lot for pair in pairs for lot in pair})} lots touch boxes of other jobs"


def grown(folder: Path, plan: Any, halos: Halos) -> str:
    """More rings for lots that see what their neighbours' jobs derive otherwise; in the end their jobs are put together."""
    findings, lots = Findings(folder), Lots(Region(folder / SCRIPT))
    held = {lots.region.names[at]: rings for at, rings in lots.numbers(findings.rings).items()}
    found = unsettled(plan, halos, held)
    if not found.number:
        return ""
    keys = lots.keys(found.rings)
    findings.seen += lots.named(found.seen)
    findings.together += lots.named(found.together)
    findings.rings = [pair for pair in findings.rings if pair[0] not in keys.values()]
    findings.rings += [[keys[name], rings] for name, rings in sorted(found.rings.items())]
    findings.save()
    return f"{found.number} lots see what other jobs derive otherwise"
