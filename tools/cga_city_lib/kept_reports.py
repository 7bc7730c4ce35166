"""The reports of a kept region, put together from those of its jobs."""
from collections import Counter
from typing import Dict, Iterable, Iterator, List

from .checking import bill_text, sums
from .kept_region import KeptRegion
from .live_job import LiveJob
from .printed import Told, entry, town_counts
from .replies import counts_of, is_refused, replies
from .towns import moved

ALONE = {"stats", "faults", "grammar", "dump", "bill", "print", "model"}
MANY = 200  # lots that are asked for in one turn


class Reports:
    """`rules` is the process without lots."""

    def __init__(self, region: KeptRegion, rules: LiveJob) -> None:
        self.region, self.rules = region, rules

    def has(self, words: List[str]) -> bool:
        """Whether a line of these words is a report."""
        is_named = len(words) == 2 and words[0] in ("print", "model") and words[1] in self.region.sources.lots
        return is_named or len(words) == 1 and words[0] in ALONE

    def of(self, words: List[str]) -> Iterator[str]:
        if words[0] in ("print", "model"):
            yield from self.drawn(words[0], words[1:] or self.region.sources.in_order())
        else:
            yield from getattr(self, words[0])()

    def stats(self) -> Iterator[str]:
        if self.region.parts.rings:
            own = [part.told[name] for part in self.region.all_parts() for name in part.own]
            counts = Counter(shapes=sum(lot.shapes for lot in own), instances=sum(lot.instances for lot in own))
            counts["faults"] = sum(map(len, self.faults_by_lot().values()))
        else:
            counts = sum((Counter(town_counts(reply[0])) for reply in self.region.ask(["stats"])), Counter())
        counts["lots"] = len(self.region.sources.lots)
        last = [job.live for job in self.region.last if job.live]
        counts["expanded"] = sum(counts_of(live.ask(["stats"]))["expanded"] for live in last)
        words = ("lots", "shapes", "instances", "faults", "expanded")
        yield " ".join(["# stats", *(f"{word} {counts[word]}" for word in words)])

    def faults_by_lot(self) -> Dict[str, List[str]]:
        found: Dict[str, List[str]] = {}
        for job, reply in zip(self.region.running(), self.region.ask(["faults"])):
            own = job.own()
            for line in reply[1:]:
                name = line.split(" ")[2]
                if name in own:
                    found.setdefault(name, []).append(line)
        return found

    def faults(self) -> Iterator[str]:
        found = self.faults_by_lot()
        yield f"# faults {sum(map(len, found.values()))}"
        for name in self.region.sources.in_order():
            yield from found.get(name, ())

    def grammar(self) -> List[str]:
        return self.rules.ask(["grammar"])

    def dump(self) -> Iterator[str]:
        lots = {
            line.split(" ", 2)[1]: line
            for reply in self.region.ask(["dump"])
            for line in reply
            if line.startswith("lot ")
        }
        yield from ("version 2", "city", *self.region.sources.head)
        yield from (lots[name] for name in self.region.sources.in_order())
        yield "end"

    def bill(self) -> List[str]:
        """Jobs with rings count their neighbours, too."""
        if self.region.parts.rings:
            return ["# refused NotKept bill"]
        bills = [Told({}, dict(map(entry, reply[1:])), 1, []) for reply in self.region.ask(["bill"])]
        return bill_text(sums(bills)[1]).split("\n")[:-1]

    def drawn(self, word: str, names: List[str]) -> Iterator[str]:
        """The OBJ text of lots, some at a time."""
        before = 0
        yield "# cga_city obj"
        for at in range(0, len(names), MANY):
            found = self.texts(word, names[at : at + MANY])
            for name in names[at : at + MANY]:
                text = "".join(f"{line}\n" for line in found[name])
                yield from moved(text.encode(), before).decode().split("\n")[:-1]
                before += sum(line.startswith("v ") for line in found[name])

    def texts(self, word: str, names: Iterable[str]) -> Dict[str, List[str]]:
        """The lines of each lot, as its own job prints them."""
        jobs: Dict[LiveJob, List[str]] = {}
        for name in names:
            live = self.region.parts.home[name].job.live
            assert live
            jobs.setdefault(live, []).append(name)
        found = {}
        for live, own in jobs.items():
            texts = replies(iter(live.ask([f"{word} {name}" for name in own])))
            found.update((name, text[1:] if not is_refused(text) else []) for name, text in zip(own, texts))
        return found
