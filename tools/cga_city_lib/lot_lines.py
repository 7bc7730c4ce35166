"""Lot lines: a region has many of them, so lines that are spelt as usual are read by one expression."""
import re
from typing import List, Match, Optional, Tuple

from .script import LONGEST, words_of

VALUE = r"(-?\d+(?:\.\d+|/\d+)?)"
TURNED = r"(?: turned (\d{1,3}(?:\.\d{1,9})?))?"  # of a region alone: the program refuses such a line
LOT = rf"lot ([A-Za-z_]\w*) (\d+(?:\.0+)?) {VALUE} {VALUE} {VALUE} {VALUE} ([A-Za-z_]\w*){TURNED}"
USUAL = re.compile(LOT, re.ASCII)
LINES = re.compile(rf"^{LOT}\r?$".encode(), re.MULTILINE)  # each such line of a text


def usual(line: str) -> Optional[Match[str]]:
    """The match of a line with one blank between its parts: the name, the seed, four values and the symbol, and
    perhaps by how many degrees the lot is turned; else None."""
    return USUAL.fullmatch(line) if len(line) <= LONGEST else None


def unusual(line: str) -> Optional[Match[str]]:
    """The same of a line with other blanks or a comment; None where its parts can't be told."""
    words = words_of(line) if len(line) <= LONGEST else []
    values, at = [], 3
    while len(values) < 4 and at < len(words):
        value, at = value_at(words, at)
        values.append(value)
    return usual(" ".join(words[:3] + values + words[at:]))


def plain(lot: Match[str]) -> str:
    """The line as the program takes it, in the frame of the lot's angle."""
    return lot.string[: lot.end(7)]


def angle(lot: Match[str]) -> float:
    return float(lot.group(8) or 0)


def value_at(words: List[str], at: int) -> Tuple[str, int]:
    """A value, whose sign and whose slash are words of their own, and the place behind it."""
    last = at + (words[at] == "-")
    if words[last + 1 : last + 2] == ["/"]:
        last += 2
    return "".join(words[at : last + 1]), last + 1
