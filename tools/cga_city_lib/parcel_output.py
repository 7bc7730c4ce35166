"""What tools/parcels writes: the script of one group of parcels, or the town of all."""
import os
from typing import Any, Callable, List

from .files import written
from .lot_list import script_of
from .near_groups import sentences
from .parcels import Group
from .rules_file import Rules
from .script import text_of
from .strangers_text import told
from .turned_town import write_town


def script(word: Any, rules: Rules, groups: List[Group], comment: str) -> bytes:
    """The script of one group, or of a region of several, whose lots tell by how many degrees each is turned."""
    lots, angles = [lot for group in groups for lot in group.lots], []
    if len(groups) > 1:
        angles = [group.angle for group in groups for _ in group.lots]
    head = f"# {len(lots)} lots of {told(os.path.basename(word.map))}, by tools/parcels; {of_turns(groups)}{comment}"
    lines = [
        "version 2",
        head.encode("utf-8", "replace").decode("latin-1"),
        "quiet",
        *script_of(rules, lots, angles),
        "bill",
        "print",
    ]
    return text_of(lines)


def of_turns(groups: List[Group]) -> str:
    if len(groups) > 1:
        return f"at {len(groups)} angles, so only tools/districts takes it; "
    (angle,) = (group.angle for group in groups)
    return f"turned by {angle:g} degrees, so say --north {-angle:g} to tools/plan; " if angle else ""


def town(word: Any, rules: Rules, found: List[Group], say: Callable[[str], None]) -> None:
    """Writes the town of all groups."""
    for sentence in sentences(found, word.reach) if rules.asks else ():
        say(sentence)
    with written(word.town, encoding="latin-1", newline="\n") as file:
        (reports,) = write_town(file, word.program, rules, found)
    faults = [line for lines in reports for line in lines[1:]]
    if faults:
        say(
            f"{len(faults)} shapes came to nothing, the first: {faults[0][2:]}; tools/lint tells why, of the script that --angle writes"
        )
    print(
        f"{told(word.town)}: {sum(len(group.lots) for group in found)} lots at {len(found)} angle{'s' * (len(found) > 1)}"
    )
