"""A town of groups that are turned: the program derives each by itself, several at once, and what it prints is turned back
and joined."""
import os
from typing import Any, Iterator, List, NamedTuple, Sequence, TextIO, Tuple

from .call import Refused
from .joining import workers
from .lot_list import script_of
from .parcels import Group
from .printed import OBJ
from .program import output, ready
from .progress import counted
from .replies import is_refused, replies
from .rules_file import Rules
from .script import commands, text_of
from .towns import moved
from .turned_text import turned_back

HELP = {
    "OverBudget": "a run takes 400,000 shapes: cut the map into parts of fewer parcels",
    "BadLot": "the lot is too large or too far away",
}
FEW = 100  # lots of a run, at least: each costs a start of the program
Report = List[str]


class Batch(NamedTuple):
    """The groups of one run, in which each begins with an empty town."""

    program: str
    rules: Rules
    groups: Sequence[Group]
    reports: Sequence[str]

    def last(self) -> List[str]:
        return [*self.reports, "model" if self.rules.is_dressed else "print"]

    def part(self, group: Group) -> List[str]:
        return ["city", "end", *script_of(self.rules, group.lots), *self.last()]

    def lots(self) -> int:
        return sum(len(group.lots) for group in self.groups)


def batches(program: str, rules: Rules, groups: Sequence[Group], reports: Sequence[str]) -> List[Batch]:
    """Runs of some groups each, one after the other: two for each processor, as far as they have enough lots."""
    number = min(2 * (os.cpu_count() or 1), 1 + sum(len(group.lots) for group in groups) // FEW)
    most = sum(len(group.lots) for group in groups) / number
    found = [Batch(program, rules, [], reports)]
    for group in groups:
        if found[-1].lots() >= most:
            found.append(Batch(program, rules, [], reports))
        found[-1].groups.append(group)  # type: ignore[attr-defined]
    return found


def derived(batch: Batch) -> List[Tuple[List[Report], bytes]]:
    """Of each group the lines of its reports, and its town, turned back."""
    parts = [batch.part(group) for group in batch.groups]
    status, out = output(batch.program, text_of(["version 2", *(line for part in parts for line in part)]))
    before, *towns = out.split(OBJ)
    found = []
    for group, part, town in zip(batch.groups, parts, towns + [b""] * len(parts)):
        answers = list(replies(before.decode("latin-1").split("\n")[:-1]))[len(found) == 0 :]
        check(batch, group, part, answers)
        if len(found) == len(towns):
            raise Refused(f"no answer: the program ended with status {status}")
        end = 0 if town.startswith(b"# ") else town.find(b"\n# ") + 1 or len(town)
        before = town[end:]
        found.append((answers[-len(batch.reports) :], turned_back(town[:end], group.angle)))
    return found


def check(batch: Batch, group: Group, part: Sequence[str], answers: Sequence[Report]) -> None:
    """Refused where the program refuses a line."""
    lots = {lot.name: lot for lot in group.lots}
    for command, answer in zip(commands(["version 2", *part])[1:], answers):
        if is_refused(answer):
            line, why = " ".join(command.words), answer[0][10:]
            lot = lots.get("".join(command.words[1:2])) if command.words[:1] == ["lot"] else None
            place = f"{lot.place} (lot `{lot.name}`)" if lot else f"{batch.rules.path}, `{line[:40]}`"
            help_ = HELP.get(why.split()[0], f"tools/lint {batch.rules.path} says what is wrong")
            raise Refused(f"{place}: {why}: {help_}")


def towns(program: str, rules: Rules, groups: Sequence[Group], reports: Sequence[str]) -> Iterator[Tuple[Any, bytes]]:
    found = batches(ready(program), rules, groups, reports)
    with workers(min(len(found), os.cpu_count() or 1)) as pool:
        for some in counted(pool(derived, found), "runs", len(found)):
            yield from some


def write_town(
    file: TextIO, program: str, rules: Rules, groups: Sequence[Group], reports: Sequence[str] = ("faults",)
) -> List[List[Report]]:
    """Writes the town, and gives for each report its lines of all groups."""
    found: List[List[Report]] = [[] for _ in reports]
    shift = 0
    file.write(OBJ.decode())
    for some, text in towns(program, rules, groups, reports):
        file.write(moved(text, shift).decode("latin-1"))
        shift += text.count(b"\nv ")
        for one, told in zip(found, some):
            one.append(told)
    return found
