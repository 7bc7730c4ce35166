"""A cut of a script of which a former one was cut: only what changed is dealt and written again. The result is that of a cut from
nothing, byte for byte; where that isn't sure, there is none, and the script is cut from nothing."""
import os
from array import array
from pathlib import Path
from typing import Any, Dict, Iterator, List, NamedTuple, Optional, Sequence, Tuple

from .call import Refused
from .changed_deal import ChangedDeal, Made
from .changed_lots import LINE, ChangedLots, Lot, SomeLots
from .cut_index import Index, read, save
from .deal import Share, coarser, ends
from .engines import engines
from .files import write
from .findings import FILE as FOUND
from .findings import Findings
from .of_plan import take_others_away
from .plan import Job, Plan, digest
from .script_changes import OtherLines, Splice, splices

MOST = 2000  # lots that change; where more do, a cut from nothing takes little longer
FEW = 32  # names that are looked for one by one
SCRIPT = "region.cga"
ALWAYS = ["grammar", "faults", "print", "stats"]


class Wanted(NamedTuple):
    """How the script is to be cut, and what is asked of each job."""

    scripts: Sequence[bytes]  # the region's, and those of the coarser heads
    program: Any
    options: Any
    facts: Any


class ChangedCut:
    def __init__(self, folder: Path, wanted: Wanted, plan: Plan, index: Index, changes: Sequence[Splice]) -> None:
        self.folder, self.wanted, self.plan, self.index = folder, wanted, plan, index
        self.lots = ChangedLots(plan, changes)
        self.deal = ChangedDeal(self.lots, plan.options, bool(plan.asks()), Findings(folder))
        self.number_of: Dict[int, int] = {}  # the new numbers of jobs that stay

    def make(self) -> Tuple[Plan, Optional[int]]:
        """Writes the plan and all that belongs to it; gives it and the number of districts."""
        made = self.deal.made()
        jobs = [self.job(number, one) for number, one in enumerate(made)]
        deal = self.dealt(made, len(self.lots.jobs))
        kept, places = [one.number for one in made], self.all_places(made) if len(self.plan.heads) > 1 else []
        for level in range(1, len(self.plan.heads)):
            found = list(self.level(level, [job for job in jobs if job.level == level - 1], kept, places))
            jobs += [job for job, *_ in found]
            kept, places = [number for _, number, _ in found], [own for *_, own in found]
        if self.wanted.facts.ground and not any(job.facts for job in jobs):
            raise OtherLines
        plan = self.plan
        new = Plan(
            self.folder,
            plan.options,
            plan.program,
            plan.heads,
            plan.asked,
            jobs,
            plan.ground,
            array("I", deal.tobytes()),
        )
        return self.written(new)

    def written(self, plan: Plan) -> Tuple[Plan, Optional[int]]:
        districts = None if self.index.districts is None else self.index.districts + self.deal.districts
        self.wanted.program.save(self.folder)
        write(self.folder / SCRIPT, self.wanted.scripts[0])
        for name, text in engines(plan.program, plan.options.words, plan.jobs):
            write(self.folder / name, os.fsencode(text))
        plan.save(self.folder)
        take_others_away(self.folder, plan.digest())
        script, index = self.wanted.scripts[0], self.index
        first = script.index(b"\nlot ") + 1
        told = {"script": digest(script), "coarser": index.coarser, "found": index.found, "first": first}
        save(self.folder, **told, districts=districts)
        return plan, districts

    # ---- jobs of the town

    def job(self, number: int, made: Made) -> Job:
        if made.share is None:
            self.number_of[made.number] = number  # type: ignore[index]
            return self.lots.jobs[made.number]
        share = made.share
        lots = self.lots.at([*share.own, *share.ring])
        return self.written_job(0, share, lots, self.plan.asked)

    def written_job(self, level: int, share: Share, lots: Sequence[Lot], asked: Sequence[str]) -> Job:
        own = [lot.name() for lot in lots[: len(share.own)]]
        script = self.plan.heads[level].script([lot.line for lot in lots], asked)
        name = self.wanted.program.job(script)
        write(self.folder / "jobs" / f"{name}.cga", script)
        facts = self.wanted.facts.write_for(self.folder, own)
        bounds = ends(*SomeLots(lots).grounds())[1] if share.ring else share.bounds
        sizes = len(share.own), len(share.ring)
        return Job(name, *sizes, share.square, level, share.angle, share.corner, bounds, facts, share.parts)

    def dealt(self, made: Sequence[Made], number: int) -> Any:
        """Of each lot the new number of its job."""
        deal = array("i", self.lots.deal)
        if any(old != new for old, new in self.number_of.items()):
            renumbered = [self.number_of.get(old, -1) for old in range(number)]
            deal = array("i", map([*renumbered, -1].__getitem__, deal))
        for at, one in enumerate(made):
            for place in one.share.own if one.share else ():
                deal[place] = at
        return deal

    # ---- coarser levels

    def all_places(self, made: Sequence[Made]) -> List[Sequence[int]]:
        """The places of the lots of all jobs."""
        found: Dict[int, List[int]] = {}
        for at, number in enumerate(self.lots.deal):
            found.setdefault(number, []).append(at)
        return [one.share.own if one.share else found.get(one.number, []) for one in made]  # type: ignore[arg-type]

    def level(
        self, level: int, below: Sequence[Job], kept: Sequence[Optional[int]], places: Sequence[Sequence[int]]
    ) -> Iterator[Tuple[Job, Optional[int], Sequence[int]]]:
        """The jobs of a level: of each its number among those of the former plan's level, where it stays, and its lots."""
        former = [job for job in self.plan.jobs if job.level == level]
        by_parts = {tuple(job.parts): number for number, job in enumerate(former)}
        for share in coarser(below, [job.own for job in below], self.plan.options.most * 4**level):
            number = by_parts.get(tuple(kept[part] for part in share.parts))
            own = sorted(at for part in share.parts for at in places[part])
            if number is not None:
                yield former[number]._replace(parts=share.parts), number, own
            else:
                new = share._replace(own=own)
                yield self.written_job(level, new, self.lots.at(own), ALWAYS), None, own


def changed_cut(folder: Path, plan: Plan, wanted: Wanted) -> Optional[Tuple[Plan, Optional[int]]]:
    """The plan of a script by what changed since the last cut; None where it has to be cut from nothing."""
    try:
        old = (folder / SCRIPT).read_bytes()
        found = (folder / FOUND).read_bytes() if (folder / FOUND).exists() else b""
        data, *others = wanted.scripts
        index = read(folder, old, list(map(digest, others)), found)
        if index is None or not data.endswith(b"\n") or not are_whole(plan):
            return None
        if (list(plan.options), plan.program, plan.ground) != wanted_of(wanted):
            return None
        changes = list(splices(old, data, index.first, MOST))
        check_names(data, changes, len(plan.deal))
        return ChangedCut(folder, wanted, plan, index, changes).make()
    except (OSError, Refused, OtherLines):
        return None


def are_whole(plan: Plan) -> bool:
    """Whether the scripts of all jobs are those of the cut; a Refused where one isn't."""
    return all(plan.script(job) for job in plan.jobs)


def wanted_of(wanted: Wanted) -> Tuple[Any, ...]:
    most, reach, rings, words, errors = wanted.options
    return [most, reach, rings, words, errors], wanted.program.name, wanted.facts.name


def check_names(data: bytes, changes: Sequence[Splice], number: int) -> None:
    """No lot is there twice, and each line that begins with `lot` is one."""
    gone = {lot.group(1) for splice in changes for lot in splice.gone}
    come = [lot.group(1) for splice in changes for lot in splice.come]
    number += len(come) - sum(len(splice.gone) for splice in changes)
    if number == 0 or len(set(come)) < len(come) or data.count(b"\nlot ") != number:
        raise OtherLines
    new = {f"lot {name}".encode() for name in come if name not in gone}
    if len(new) > FEW:
        names = [line[: line.index(b" ", 4)] for line in LINE.findall(data)]
        is_twice = sum(name in new for name in names) != len(new)
    else:
        is_twice = any(data.count(b"\n%s " % name) != 1 for name in new)
    if is_twice:
        raise OtherLines
