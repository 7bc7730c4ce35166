"""What the program refuses, as exceptions: one class for each name that docs/LANGUAGE.md lists under "Refusals"."""
from typing import Dict, List, Optional, Tuple, Type

from .causes import CAUSES
from .script import rule_of, words_of


class Refused(Exception):
    """A line or a block was refused, and has changed nothing.

    name: the cause, as "BadLot"; about: whom it tells of, as ("a",); place: the byte of the line, from 1, or None;
    row: the line of the block, from 1 behind the one that opens it, or None; line: the text of the line that is at fault.
    """

    def __init__(self, name: str, about: Tuple[str, ...], place: Optional[int], row: Optional[int], line: str) -> None:
        self.name, self.about, self.place, self.row, self.line = name, about, place, row, line
        said = CAUSES.get(name, "").format(*about, "", "")  # a cause tells of two at most
        super().__init__(" ".join((name, *about)) + (f" at byte {place}" if place else "") + f": {said}; in: {line}")


def refused(reply: str, lines: List[str]) -> Refused:
    """The exception for a reply `# refused ..` to a command of these lines."""
    name, *about = reply[len("# refused ") :].split()
    place = row = None
    if "at" in about[-2:-1]:
        *about, _, at = about
        first, _, last = at.rpartition(":")
        is_row = bool(first) or name in OF_ROWS or name == "LineTooLong" and len(lines) > 1
        row = int(first or at) if is_row else None
        place = int(last) if first or not is_row else None
    if row is None and len(lines) > 1:
        row = row_of(about, lines)
    return KINDS.get(name, Refused)(name, tuple(about), place, row, lines[row or 0])


def row_of(about: List[str], lines: List[str]) -> Optional[int]:
    """The line of a block that tells of the rule, or of the lot or attribute, that a cause names; of two the last."""
    for row in range(len(lines) - 1, 0, -1):
        rule, words = rule_of(lines[row]), words_of(lines[row])
        if about and (
            rule is not None
            and about[0] == str(rule[0])
            or words[:1] in (["lot"], ["attr"])
            and words[1:2] == about[:1]
        ):
            return row
    return None


class LineTooLong(Refused):
    ...


class BadByte(Refused):
    ...


class BadNumber(Refused):
    ...


class LongName(Refused):
    ...


class OpenText(Refused):
    ...


class Unexpected(Refused):
    ...


class TooNested(Refused):
    ...


class OpenBlock(Refused):
    ...


class NoRule(Refused):
    ...


class NoAttribute(Refused):
    ...


class NoLot(Refused):
    ...


class NoSymbol(Refused):
    ...


class BadLot(Refused):
    ...


class TooManyLots(Refused):
    ...


class TooManyRules(Refused):
    ...


class TooManyAttributes(Refused):
    ...


class DoubleAttribute(Refused):
    ...


class DoubleId(Refused):
    ...


class SplitPriority(Refused):
    ...


class WrongArity(Refused):
    ...


class DoubleName(Refused):
    ...


class BadProbability(Refused):
    ...


class UnknownSymbol(Refused):
    ...


class PartsDiffer(Refused):
    ...


class UnknownName(Refused):
    ...


class OverBudget(Refused):
    ...


class NoUndo(Refused):
    ...


class NoRedo(Refused):
    ...


class LongDump(Refused):
    ...


class UnknownLine(Refused):
    ...


class BadVertex(Refused):
    ...


class BadFace(Refused):
    ...


class TooManyVertices(Refused):
    ...


class TooManyFaces(Refused):
    ...


class NoFace(Refused):
    ...


class TooManyAssets(Refused):
    ...


class TooManyDresses(Refused):
    ...


class ModelTooLarge(Refused):
    ...


class NoAsset(Refused):
    ...


class NoDress(Refused):
    ...


KINDS: Dict[str, Type[Refused]] = {kind.__name__: kind for kind in Refused.__subclasses__()}
OF_ROWS = (
    "UnknownLine",
    "BadVertex",
    "BadFace",
    "TooManyVertices",
    "TooManyFaces",
)  # of asset blocks, `at L` is a line
