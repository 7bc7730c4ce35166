"""Jobs that derive their neighbours with them. What a job's own lots see of a neighbour must be what the neighbour's own
job derived: then the own lots of all jobs are, together, the town. Two jobs derived the same of a lot where its steps are
the same, each with its answers: a step's shape and answers say all that comes of it."""
import json
from collections import namedtuple

from .apart import Sets, touching
from .checking import across_jobs, over_all
from .files import can_write, write
from .printed import Printed, reading
from .progress import counted
from .steps import digest_of, sizes, steps_by_lot

LARGEST = 4  # times the rings of the cut: lots that need more have their jobs put together

# how many lots see something else; pairs that are new to each other; the rings that lots need; pairs of one job
Unsettled = namedtuple("Unsettled", "number seen rings together")


class Traced:
    """Of each lot of a job the digest of its steps, how many shapes it has, and how many of these are instances."""

    def __init__(self, folder, plan, job):
        self.printed, self.kept = Printed(folder, plan, job), folder / "jobs" / f"{job.name}.steps"
        self.names = plan.lots_of(job)

    def read(self):
        """What was worked out once is kept beside the output."""
        try:
            kept = [
                (str(digest), int(shapes), int(instances))
                for digest, shapes, instances in json.loads(self.kept.read_bytes())
            ]
            if len(kept) == len(self.names):
                return kept
        except (OSError, ValueError, TypeError):
            pass
        with reading(self.printed.path):
            made = self.made()
        if can_write(self.kept.parent):
            write(self.kept, json.dumps(made).encode())
        return made

    def made(self):
        head, *lines = self.printed.from_last(b"\n# trace ").partition(b"\n# stats ")[0].split(b"\n")
        if head != b"# trace %d" % len(lines):
            raise self.printed.broken("its steps aren't whole")
        found = steps_by_lot(lines)
        lots = [found[name.encode("latin-1")] for name in self.names]
        return [(digest_of(steps), *sizes(steps)) for steps in lots]


def traced(folder, plan, jobs):
    return [Traced(folder, plan, job).read() for job in counted(jobs, "jobs compared")]


def own_counts(folder, plan, jobs, traces):
    """What each job counts of its own lots, where it tells of its neighbours, too."""
    return [
        {
            "lots": job.own,
            "shapes": sum(shapes for _, shapes, _ in trace[: job.own]),
            "instances": sum(instances for *_, instances in trace[: job.own]),
            "faults": len(Printed(folder, plan, job).faults()),
        }
        for job, trace in zip(jobs, traces)
    ]


class Halos:
    """What jobs derived: of each lot, by its name, the job that it is an own one of, its box there, and the digest of its steps.
    A neighbour that is an own lot of none of these jobs isn't compared."""

    def __init__(self, plan, jobs, told, traces):
        self.jobs, self.boxes = jobs, list(over_all(told))
        names = list(map(plan.lots_of, jobs))
        self.own, self.ring = ([some[part(job)] for job, some in zip(jobs, names)] for part in (own_of, ring_of))
        self.digests = [[digest for digest, *_ in trace] for trace in traces]
        self.job_of = {lot: at for at, own in enumerate(self.own) for lot in own}
        self.box = {lot: box for own, boxes in zip(self.own, self.boxes) for lot, box in zip(own, boxes)}
        self.digest = {lot: digest for own, digests in zip(self.own, self.digests) for lot, digest in zip(own, digests)}

    def missing(self):
        """Own lots with lots of other jobs that they touch, and that weren't derived with them."""
        rings = list(map(set, self.ring))
        boxes = [boxes[: len(own)] for own, boxes in zip(self.own, self.boxes)]
        for pair in across_jobs(boxes, [job.angle for job in self.jobs]):
            for (one, at), (other, place) in (pair, pair[::-1]):
                lot, neighbour = self.own[one][at], self.own[other][place]
                if neighbour not in rings[one]:
                    yield lot, neighbour

    def differing(self):
        """Own lots with neighbours that they touch, and of which their own job derived something else."""
        for lots, ring, boxes, digests in zip(self.own, self.ring, self.boxes, self.digests):
            own = len(lots)
            known = [at for at, lot in enumerate(ring) if lot in self.digest]
            others = [at for at in known if digests[own + at] != self.digest[ring[at]]]
            areas = boxes[:own] + [boxes[own + at] for at in others] + [self.box[ring[at]] for at in others]
            for one, other in touching(areas):
                one, other = min(one, other), max(one, other)
                if one < own <= other:
                    yield lots[one], ring[others[(other - own) % len(others)]]


def own_of(job):
    return slice(job.own)


def ring_of(job):
    return slice(job.own, None)


def unsettled(plan, halos, rings):
    """What keeps the jobs from being the town: lots to be seen, rings to grow, and lots to be put together."""
    seen, differing = sorted(halos.missing()), set(halos.differing())
    numbers = {lot: number for number, lot in enumerate(halos.job_of)}
    usual, more, merged = plan.options.rings, {}, Sets(len(numbers))
    together = []
    for lot, neighbour in sorted(differing):
        held = rings.get(lot, usual)
        if held < LARGEST * usual:
            more[lot] = 2 * held
            continue
        for job in (halos.job_of[lot], halos.job_of[neighbour]):
            together += [(lot, other) for other in halos.own[job] if merged.join(numbers[lot], numbers[other])]
    return Unsettled(len({lot for lot, _ in [*seen, *differing]}), seen, more, together)
