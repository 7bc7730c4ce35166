"""Why a town is too large: how many lots or shapes there are, and which lot is the first that passes what a town may have."""
from typing import Callable, List, Tuple

from .replies import counts_of, is_refused
from .script import Command
from .standing import block, standing

Ask = Callable[[List[str]], List[List[str]]]
CAUSES = ("OverBudget", "TooManyLots")
CUT = "tools/districts cuts a region into jobs of fewer lots each"


def explained(
    ask: Ask, lines: List[str], answers: List[Tuple[Command, List[str]]], command: Command, cause: str
) -> str:
    before = [(other, reply) for other, reply in answers if other.first < command.first]
    standing_lots = [lines[at] for _, at in standing(lines, before).lots.values()]
    own = [lines[at] for at in block(command, lines) if lines[at].split()[:1] == ["lot"]] if command.is_block else []
    if cause == "TooManyLots":
        return f"here {'are' if own else 'is lot number'} {(len(own) or len(standing_lots) + 1):,}{' lots' * bool(own)}; {CUT}"
    if command.words[:1] == ["lot"]:
        return passed(ask(lines[: command.first] + ["stats"])[-1:], lines[command.first])
    return first_passed(ask, lines, command, standing_lots, own)


def passed(told: List[List[str]], lot: str) -> str:
    """What stood before a lot that is refused."""
    counts = counts_of(told[0]) if told and told[0][0].startswith("# stats") else {}
    number, shapes = counts.get("lots", 0), counts.get("shapes", 0)
    if not number:
        return f"lot {name_of(lot)} alone passes it: a rule of its shapes goes on without end, or splits too finely"
    return (
        f"the first {number:,} lots have {shapes:,} shapes, and lot {name_of(lot)} is the first that passes it; {CUT}"
    )


def name_of(lot: str) -> str:
    return f"`{lot.split()[1]}`" if lot.split()[1:] else "?"


def first_passed(ask: Ask, lines: List[str], command: Command, lots: List[str], own: List[str]) -> str:
    """Puts the lots in one by one, behind the edit that is refused with all of them."""
    edit = lines[command.first : command.last + 1]
    if command.is_block:
        edit = ["rules", *(line for line in edit[1:] if line.split()[:1] != ["lot"])]
    wanted = own if command.words == ["city"] else lots
    gone = [f"unlot {lot.split()[1]}" for lot in lots]
    script = lines[: command.first] + gone + edit
    for lot in wanted:
        script += [lot, "stats"]
    replies = ask(script)[-2 * len(wanted) :] if wanted else []
    before: List[List[str]] = [["# stats lots 0"]]
    for lot, reply, counts in zip(wanted, replies[::2], replies[1::2]):
        if is_refused(reply):
            return passed(before, lot) if reply[0].startswith("# refused OverBudget") else ""
        before = [counts]
    return ""
