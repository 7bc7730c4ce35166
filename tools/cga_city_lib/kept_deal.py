"""How the lots of a region that is kept are dealt: at its beginning, where a lot comes, moves or goes, and where parts don't
agree. Where no rule asks, a job is one part. Where rules ask, a part is some districts, or with rings again a whole job."""
from typing import Any, Dict, Iterable, List, Optional, Set

from .agreement import Differing
from .deal import Share, by_place, districts, singly, with_rings
from .findings import Findings, Lots
from .grid import ONE
from .halo import LARGEST
from .kept_parts import Job, Part, Parts, TooManyLots
from .kept_sources import Lot, LotsNow
from .program import MOST_LOTS

FEW = 32  # lots of a part, where districts are whole


class Dealer:
    """`options` are those of the cut; only where a rule asks lots have to do with each other."""

    def __init__(self, parts: Parts, asks: bool, options: Any) -> None:
        self.parts, self.asks, self.options = parts, asks, options

    # ---- at the beginning

    def deal(self, lots: LotsNow, findings: Findings) -> None:
        """All lots, by place, and by what checks of the region have found."""
        for name, lot in self.parts.lots.items():
            self.parts.put(name, lot)
        keys = Lots(lots)
        for one, other in keys.pairs(findings.seen) if self.parts.rings else ():
            self.parts.see(lots.names[one], lots.names[other])
        if not self.asks:
            self.as_jobs(lots, singly(lots, self.options))
        elif self.parts.rings:
            more = keys.numbers(findings.rings)
            self.parts.more = {lots.names[at]: rings for at, rings in more.items()}
            pairs = (keys.pairs(found) for found in (findings.together, findings.seen))
            self.as_jobs(lots, with_rings(lots, self.options, *pairs, more))
        else:
            self.whole_districts(lots, keys.pairs(findings.together))

    def as_jobs(self, lots: LotsNow, shares: Iterable[Share]) -> None:
        """Each job is one part."""
        for own, ring, square, *_ in shares:
            self.parts.add(self.job(square), [lots.names[at] for at in own], [lots.names[at] for at in ring])

    def job(self, square: Any) -> Job:
        job = Job(tuple(square))
        self.parts.jobs.append(job)
        return job

    def whole_districts(self, lots: LotsNow, together: List[Any]) -> None:
        """A job has the districts of a square, and each of its parts some of them."""
        groups = districts(lots, self.options, together)
        if max(map(len, groups), default=0) > MOST_LOTS:
            raise TooManyLots
        group_of = {at: number for number, group in enumerate(groups) for at in group}
        for share in by_place(lots, groups, self.options.most):
            job, inside = self.job(share.square), sorted({group_of[at] for at in share.own})
            for part in by_place(lots, [groups[number] for number in inside], FEW):
                self.parts.add(job, [lots.names[at] for at in part.own])

    # ---- an edit

    def move(self, lots: Dict[str, Optional[Lot]]) -> Set[Part]:
        """Lots come, change or go. Gives the parts that are to be told of again."""
        found: Set[Part] = set()
        for name, lot in lots.items():
            home = self.parts.home.get(name)
            if lot and home and self.parts.grounds.boxes[name] == self.parts.grown(lot):
                found |= {home, *self.parts.holders.get(name, ())}
            else:
                found |= self.with_rings(name, lot) if self.parts.rings else self.by_district(name, lot)
        return {part for part in found if part.own}

    def by_district(self, name: str, lot: Optional[Lot]) -> Set[Part]:
        """The lot goes to the part of its district, or is one of its own."""
        parts, home = self.parts, self.parts.home.get(name)
        parts.drop(name)
        if home:
            parts.set(home, home.job, home.own - {name}, set())
        if lot is None:
            return {home} if home else set()
        near = {parts.home[other] for other in parts.grounds.touching(parts.grown(lot))} if self.asks else set()
        parts.put(name, lot)
        part = self.put_together(near) if near else self.place(lot, home)
        parts.set(part, part.job, part.own | {name}, set())
        return {part, home} if home else {part}

    def place(self, lot: Lot, home: Optional[Part]) -> Part:
        """The part of a lot that touches no other: that of its job's where no rule asks, else a new one. A job that is full leaves
        it to a new one."""
        job = self.job_of(lot, home)
        if len(job.own()) >= 2 * self.options.most:
            job = self.job_at(lot)
        if not self.asks and job.parts:
            return next(iter(job.parts))
        return Part(job)

    def job_of(self, lot: Lot, home: Optional[Part]) -> Job:
        """That of the lot's place; the one that it had where its square has that place, too."""
        if home and home.job.away(lot.ground) == 0:
            return home.job
        return self.parts.job_of(lot.ground) or self.job_at(lot)

    def job_at(self, lot: Lot) -> Job:
        """A new job, at the lot's corner."""
        return self.job((int(lot.ground[0] // ONE), int(lot.ground[2] // ONE), 1))

    def with_rings(self, name: str, lot: Optional[Lot]) -> Set[Part]:
        """The lot goes to the job of its place, and the rings of all jobs near follow."""
        parts, home = self.parts, self.parts.home.get(name)
        holders, area = set(parts.holders.get(name, ())), parts.around([name])
        parts.drop(name)
        if home:
            parts.set(home, home.job, home.own - {name}, home.ring)
        if lot:
            parts.put(name, lot)
            area |= parts.around([name])
            job = self.job_of(lot, home)
            part = next(iter(job.parts), home if home and home.job is job else None) or Part(job)
            parts.set(part, part.job, part.own | {name}, part.ring)
        found = holders | {parts.home[other] for other in area if other in parts.home} | ({home} if home else set())
        return self.ringed(found) | (holders | {parts.home[name]} if lot else holders)

    def ringed(self, found: Iterable[Part]) -> Set[Part]:
        """Gives parts the rings that their own lots have by now; those that got others."""
        return {part for part in found if self.is_ringed(part)}

    def is_ringed(self, part: Part) -> bool:
        ring = self.parts.ring(part.own)
        if ring == part.ring and part.told.keys() == part.own | ring:
            return False
        self.parts.set(part, part.job, part.own, ring)
        return True

    # ---- where parts don't agree

    def settle(self, pairs: Iterable[Differing]) -> Set[Part]:
        """Lots see more of each other from now on. Gives the parts that are to be told of again."""
        if self.parts.rings:
            return self.grow(list(pairs))
        found: Set[Part] = set()
        for _, lot, other in pairs:
            found.add(self.put_together({self.parts.home[lot], self.parts.home[other]}))
        return {part for part in found if part.own}

    def grow(self, pairs: List[Differing]) -> Set[Part]:
        """Lots that weren't there come into the rings, and rings that don't do get larger: in the end jobs are put together."""
        usual, more, found = self.parts.rings, dict(self.parts.more), set()
        for part, lot, other in pairs:
            held = self.parts.more.get(lot, usual)
            if other not in part.ring:
                self.parts.see(lot, other)
            elif held < LARGEST * usual:
                more[lot] = 2 * held
            else:
                part = self.put_together({self.parts.home[lot], self.parts.home[other]})
            found.add(part)
        self.parts.more = more
        return self.ringed(part for part in found if part.own)

    def put_together(self, found: Set[Part]) -> Part:
        """The largest of some parts gets the lots of all."""
        largest = max(found, key=lambda part: (len(part.own), id(part)))
        for part in found - {largest}:
            own = part.own
            self.parts.set(part, part.job, set(), set())
            self.parts.set(largest, largest.job, largest.own | own, largest.ring - own)
        return largest
