"""What has no counterpart, and what was written nearly so, each with the line of the CGA file."""
from typing import Dict, List, NamedTuple, Tuple

from ..strangers_text import told


FILE = 10**6  # added to the lines of each further file
LONGEST = 700  # letters of what is quoted, so that the line is one that a script may have
WIDTH = 60  # of text that `told` leaves whole


def whole(text: str) -> str:
    """A text of any length that is fit for a comment of one line."""
    return "".join(told(text[at : at + WIDTH]) for at in range(0, len(text), WIDTH))


class Lost(Exception):
    """A value, a condition or an item has no counterpart, with the reason."""


class Remark(NamedTuple):
    line: int
    written: str
    reason: str
    is_lost: bool  # else it was written nearly so


class Remarks:
    """All remarks of a port; those since the last `taken` belong to the line that is written next."""

    def __init__(self) -> None:
        self.all: List[Remark] = []
        self.at = 0
        self.stated: List[str] = []  # comments that aren't counted, since the last `taken`

    def lost(self, line: int, written: str, reason: str) -> None:
        self.add(Remark(line, written, reason, True))

    def nearly(self, line: int, written: str, reason: str) -> None:
        self.add(Remark(line, written, reason, False))

    def add(self, remark: Remark) -> None:
        if remark not in self.all:
            self.all.append(remark)

    def state(self, comment: str) -> None:
        """Keeps a comment that the script is read by."""
        if comment not in self.stated:
            self.stated.append(comment)

    def taken(self) -> List[str]:
        """The comments for the remarks since the last call."""
        new, self.at = self.all[self.at :], len(self.all)
        alike: Dict[Tuple[str, bool], List[Remark]] = {}
        for remark in new:
            alike.setdefault((remark.reason, remark.is_lost), []).append(remark)
        stated, self.stated = self.stated, []
        return [*map(comment, alike.values()), *stated]

    def many(self, is_lost: bool) -> int:
        return sum(remark.is_lost == is_lost for remark in self.all)


def comment(remarks: List[Remark]) -> str:
    """The comment for remarks of one reason."""
    what = "left out" if remarks[0].is_lost else "nearly"
    lines = list(dict.fromkeys(place(remark.line) for remark in remarks))
    written = ", ".join(dict.fromkeys(whole(remark.written) for remark in remarks))
    written = written[:LONGEST] + " .." * (len(written) > LONGEST)
    return f"# {what}, {', '.join(lines)}: {written}: {remarks[0].reason}"


def place(line: int) -> str:
    """The line of a file; those of files that are imported are counted on from further up."""
    return f"line {line % FILE}" + (f" of import {line // FILE}" if line >= FILE else "")
