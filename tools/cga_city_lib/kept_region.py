"""A region that is kept: each job is a cga_live with its own lots and their neighbours, and an edit goes to those whom it
concerns. What it changed of own lots is what it changed of the region, since the parts of the jobs agree behind each edit."""
from typing import Any, Callable, Dict, Iterable, Iterator, List, Sequence, Set, Tuple

from .agreement import differing
from .findings import Findings
from .grid import number
from .kept_changes import Changes
from .kept_deal import Dealer
from .kept_parts import Job, Part, Parts, TooManyLots
from .kept_sources import Edit, LotsNow, Sources
from .live_job import LiveJob, Step, city, first_step
from .printed import asking
from .told_boxes import Asked, Boxes, NotTold


class RefusedByJob(Exception):
    """A job refused a step, with the reply."""


class KeptRegion:
    """`begun` gives the words of another process, and `told_by` a program that tells boxes, which only asks need."""

    def __init__(
        self,
        sources: Sources,
        options: Any,
        findings: Findings,
        begun: Callable[[], Sequence[str]],
        told_by: Callable[[], str],
    ) -> None:
        self.sources, self.options, self.findings = sources, options, findings
        self.begun, self.told_by = begun, told_by
        self.dressed: List[str] = []
        self.is_begun = False
        self.last: Set[Job] = set()  # the jobs that the last edit concerned
        self.edited: Set[str] = set()  # the lots that it was of
        self.boxes: List[Boxes] = []  # one, once a rule asks
        self.parts = Parts({}, 0, 0)
        self.dealer = Dealer(self.parts, False, options)

    # ---- at the beginning

    def begin(self) -> Iterator[Changes]:
        """Deals the lots, until the parts agree, and begins the jobs. Gives the instances of each."""
        asks = bool(asking(self.sources.head))
        self.deal(asks)
        if asks:
            self.agree(self.all_parts())
        self.parts.keep()
        self.is_begun, jobs = True, self.parts.jobs
        for job in jobs:
            self.send(job, self.steps(job, ())[0])
        for job in jobs:
            found = Changes()
            refusal = self.take(job, found)
            if refusal:
                raise RefusedByJob(refusal)
            yield found

    def deal(self, asks: bool) -> None:
        """All lots in new jobs."""
        self.close_jobs()
        self.parts = Parts(self.sources.lots, self.options.rings if asks else 0, number(self.options.reach))
        self.dealer = Dealer(self.parts, asks, self.options)
        self.dealer.deal(LotsNow("the region", self.sources), self.findings)

    def deal_for_asks(self) -> None:
        """The lots as they are to be dealt where a rule asks, under the rules that are there, of which none does."""
        self.deal(True)
        self.parts.keep()
        self.finish(self.start(self.parts.jobs), Changes())

    def running(self) -> List[Job]:
        return [job for job in self.parts.jobs if job.live]

    def ask(self, lines: List[str]) -> List[List[str]]:
        """What each running job replies to lines that edit nothing."""
        lives = [job.live for job in self.running() if job.live]
        for live in lives:
            live.send(Step(lines, live.head, live.lots, set()))
        return [live.answered().replies for live in lives]

    def all_parts(self) -> Set[Part]:
        return {part for job in self.parts.jobs for part in job.parts}

    # ---- an edit

    def edit(self, edit: Edit) -> Tuple[str, Changes]:
        """The reply to an edit, and what it changed. A refused one leaves all as it was."""
        if not self.is_begun:
            self.sources.put(edit)
            return "# ok", Changes()
        back, was_checked, self.edited = self.sources.back(edit), self.parts.is_checked, set(edit.lots)
        if edit.head is not None and asking(edit.head) and not self.dealer.asks:
            self.deal_for_asks()
        self.sources.put(edit)
        try:
            changes = self.changes(edit)
        except (RefusedByJob, NotTold, TooManyLots) as fault:
            self.take_back(back)
            self.parts.is_checked = was_checked
            return "# refused TooManyLots" if isinstance(fault, TooManyLots) else str(fault), Changes()
        self.parts.keep()
        self.parts.jobs = [job for job in self.parts.jobs if job.parts]
        return "# ok", changes

    def changes(self, edit: Edit) -> Changes:
        """Leads all jobs to the sources, behind which their parts agree. While the jobs work, the parts are told of."""
        found = Changes()
        if edit.head is None:
            parts = self.dealer.move(edit.lots)
            self.last = {part.job for part in parts} | self.parts.changed_jobs()
        else:
            self.last, parts = set(self.parts.jobs), self.all_parts()
        sent = self.start(self.last, edit.lines)
        try:
            if self.dealer.asks:
                self.agree(parts)
        finally:
            self.finish(sent, found)
        self.last |= self.parts.changed_jobs()
        self.finish(self.start(self.last), found)
        self.close_empty()
        return found

    def agree(self, parts: Iterable[Part]) -> None:
        """Has parts told of again, and puts lots of parts together that don't agree, until all do. While no rule asks, they do."""
        boxes, is_asking = self.teller(), bool(asking(self.sources.head))
        while True:
            self.parts.check_sizes()
            found = list(parts)
            for part, told in zip(found, boxes.run(list(map(self.asked, found)))):
                self.parts.tell(part, told)
            pairs = list(differing(self.parts)) if is_asking else []
            if not pairs:
                self.parts.is_checked = is_asking
                return
            parts = self.dealer.settle(pairs)

    def asked(self, part: Part) -> Asked:
        return Asked([self.sources.lots[name].line for name in part.own | part.ring], part.told)

    def teller(self) -> Boxes:
        if not self.boxes:
            self.boxes.append(Boxes(self.told_by(), bool(self.options.rings)))
        self.boxes[0].set_head(self.sources.head)
        return self.boxes[0]

    def prepare(self) -> None:
        """Processes that tell boxes wait for the next edit."""
        if self.boxes and self.dealer.asks:
            self.teller().prepare()

    def take_back(self, back: Edit) -> None:
        """All is as it was before the edit."""
        jobs = self.last | self.parts.changed_jobs()
        self.sources.put(back)
        for name in back.lots:
            lot = self.sources.lots.get(name)
            if lot:
                self.parts.put(name, lot)
            else:
                self.parts.drop(name)
        self.parts.take_back()
        self.finish(self.start(jobs), Changes())
        self.parts.sure(jobs)
        self.close_empty()

    # ---- jobs

    def start(self, jobs: Iterable[Job], lines: Sequence[str] = ()) -> List[Tuple[Job, List[Step]]]:
        """Sends to jobs the first of the steps that lead them to the lots and the head that they are to have."""
        todo = [(job, steps) for job, steps in ((job, self.steps(job, lines)) for job in jobs) if steps]
        for job, steps in todo:
            self.send(job, steps[0])
        return todo

    def finish(self, todo: List[Tuple[Job, List[Step]]], found: Changes) -> None:
        """Takes the answers to first steps, and sends the second ones. Gives what changed of own lots."""
        while todo:
            refusals = {self.take(job, found) for job, _ in todo} - {""}
            if refusals:
                raise RefusedByJob(min(refusals))  # so that OverBudget, the last cause of a run, is told last
            todo = [(job, steps[1:]) for job, steps in todo if steps[1:]]
            for job, steps in todo:
                self.send(job, steps[0])

    def send(self, job: Job, step: Step) -> None:
        if job.live is None:
            job.live = LiveJob(self.begun(), self.sources.head, self.dressed)
        job.live.send(step)

    def take(self, job: Job, found: Changes) -> str:
        """Takes what a job told of its step; the reply where it is refused."""
        assert job.live
        answer = job.live.take()
        found.take(job, answer)
        return answer.refusal()

    def steps(self, job: Job, lines: Sequence[str]) -> List[Step]:
        """What leads a job from what it has to what it is to have. A lot that comes from another job or goes there is taken away
        first, so that all its instances are told."""
        live, own, head = job.live, job.own(), self.sources.head
        if live is None:
            wanted = self.wanted(job)
            return [first_step(self.dressed, head, wanted, own)] if wanted else []
        if live.head != head:
            if lines:
                return [Step(list(lines), head, live.lots, live.own)]
            wanted = self.wanted(job)
            return [Step(city(head, wanted), head, wanted, own)]
        return self.steps_of(live, job.unsure | self.edited, job.has(), own)

    def steps_of(self, live: LiveJob, names: Set[str], has: Set[str], own: Set[str]) -> List[Step]:
        """The same where the head stays, and only some lots may differ."""
        kept, wanted = dict(live.lots), dict(live.lots)
        out, new = [], []
        for name in sorted(names):
            line = self.sources.lots[name].line if name in has else ""
            if name in kept and (not line or (name in own) != (name in live.own)):
                out.append(f"unlot {name}")
                del kept[name], wanted[name]
            if line and kept.get(name) != line:
                new.append(line)
                wanted[name] = line
        return [live.to(out, kept, live.own)] * bool(out) + [live.to(new, wanted, own)] * bool(new)

    def wanted(self, job: Job) -> Dict[str, str]:
        return {name: self.sources.lots[name].line for name in job.has()}

    def close(self, job: Job) -> None:
        if job.live:
            job.live.close()
            job.live = None

    def close_empty(self) -> None:
        for job in self.last:
            if not job.parts:
                self.close(job)

    def close_jobs(self) -> None:
        for job in self.parts.jobs:
            self.close(job)

    def end(self) -> None:
        self.close_jobs()
        for boxes in self.boxes:
            boxes.close()
