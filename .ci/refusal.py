"""Whether the prover refuses a planted bug as it must: at a goal of the function that the bug names."""
import re
from typing import List, Set

# a page of the proof, or a clause, that names what the edit took away
NAMES = re.compile(
    r"(?:note: )?(?:\./)?\S+:\d+:\d+: error: (?:`[^`]*`: )?.*(?:has no field|is not in scope|has no `|is no name)"
)
# what the front end refuses, before the prover is asked
UNREAD = re.compile(r"(?:\./)?(?:src|specs)/\S+: error(?:\[[\w-]+\])?:|\S+: error\[[\w-]+\]:")
FUNCTION = re.compile(r"fn (\S+): (not proved|no proof|could not tell)\b(.*)")
OPEN_GOAL = re.compile(r"note: src/\S+: it is not proved that ")


def page_error(function: str) -> "re.Pattern[str]":
    """An answer of the function's page of proof that doesn't fit its goal."""
    page = re.escape("/".join(function.split("::")))
    return re.compile(rf"(?:\./)?proofs/{page}/(?:Answers|Proof)\.antt:\d+:\d+: error: ")


def why_not(said: str, crate: str, function: str, together: Set[str]) -> str:
    """Why what a check of the function said is no refusal by it; nothing where it is. A cycle of calls is proved as one."""
    lines = said.split("\n")
    for form, why in ((NAMES, "a page names what the edit took away"), (UNREAD, "the prover wasn't reached")):
        found = next((line for line in lines if form.match(line)), "")
        if found:
            return f"{why}: {found[:200]}"
    ended = next((line for line in lines if line.startswith("only=")), "")
    if not ended:
        return f"the check came to no end: {lines[-2][:200] if len(lines) > 1 else said[:200]}"
    open_ones = {match[1]: match[0] for line in lines for match in [FUNCTION.match(line)] if match}
    if not open_ones:
        return f"NOT REFUSED, the function is still proved ({ended})"
    others = sorted(set(open_ones) - {f"{crate}::{name}" for name in together})
    own = open_ones.get(f"{crate}::{function}", "")
    if others or not own:
        return f"refused by {', '.join(others or sorted(open_ones))}, and not by {crate}::{function} alone"
    return fault_of_goals(lines, own, page_error(function))


def fault_of_goals(lines: List[str], own: str, page: "re.Pattern[str]") -> str:
    """Why no goal of the function is open; nothing where one is."""
    if "could not tell" in own:
        return "the prover could not tell, by a limit of its own: choose a change that it refuses sooner"
    if "did not prove" in own or any(OPEN_GOAL.match(line) or page.match(line) for line in lines):
        return ""
    return f"no goal is told to be open: {own}"
