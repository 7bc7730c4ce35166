"""A town as a Python object: a running cga_city that does edits one by one, and answers each at once.

    import sys
    sys.path.insert(0, "/path/to/cga_city/tools")
    from cga_city import City, Refused

    with City() as city:
        city.do(open("town.cga").read())
        city.do("attr storey = 3")
        try:
            city.do("lot a 1 0 0 0 8 house")
        except Refused as refused:
            print(refused.name, refused.about, refused.line)
        print(city.stats().expanded, city.bill())
        open("town.obj", "w").write(city.obj())

A City speaks version 2 from its first line on. It is of one thread at a time. Python's standard library is all it needs.
"""
import re
from decimal import Decimal
from fractions import Fraction
from types import TracebackType
from typing import Dict, List, NamedTuple, Optional, Tuple, Type

from cga_city_lib.pipe import Ended, Pipe
from cga_city_lib.call import Refused as CannotBuild
from cga_city_lib.program import ready

# fmt: off
from cga_city_lib.refusals import (
    Refused, LineTooLong, BadByte, BadNumber, LongName, OpenText, Unexpected, TooNested, OpenBlock, NoRule,
    NoAttribute, NoLot, NoSymbol, BadLot, TooManyLots, TooManyRules, TooManyAttributes, DoubleAttribute, DoubleId,
    SplitPriority, WrongArity, DoubleName, BadProbability, UnknownSymbol, PartsDiffer, UnknownName, OverBudget,
    NoUndo, NoRedo, LongDump, UnknownLine, BadVertex, BadFace, TooManyVertices, TooManyFaces, NoFace,
    TooManyAssets, TooManyDresses, ModelTooLarge, NoAsset, NoDress, refused)
# fmt: on
from cga_city_lib.script import commands, is_open, lines_of, text_of, words_of

# fmt: off
__all__ = [
    "BadByte", "BadFace", "BadLot", "BadNumber", "BadProbability", "BadVertex", "Bill", "Changes", "City",
    "DoubleAttribute", "DoubleId", "DoubleName", "Ended", "Fault", "Instance", "LineTooLong", "LongDump",
    "LongName", "ModelTooLarge", "NoAsset", "NoAttribute", "NoDress", "NoFace", "NoLot", "NoRedo", "NoRule",
    "NoSymbol", "NoUndo", "NotBuilt", "OpenBlock", "OpenText", "OverBudget", "PartsDiffer", "Refused",
    "SplitPriority", "Stats", "Step", "TooManyAssets", "TooManyAttributes", "TooManyDresses", "TooManyFaces",
    "TooManyLots", "TooManyRules", "TooManyVertices", "TooNested", "Unexpected", "UnknownLine", "UnknownName",
    "UnknownSymbol", "WrongArity"]
# fmt: on

FENCE, FENCE_REPLY = (
    b"unlot 0\n",
    "# refused Unexpected at 7",
)  # a line that is refused at once ends whatever reply came before it
COUNTED = re.compile(r"# (?:faults|bill|trace) (\d+)")
CHANGED = re.compile(r"# changed (\d+) (\d+)")
VERSION = "version 2"
PASSED_OVER = (["quiet"], VERSION.split())  # a City needs each reply, and has said its version

Numbers = Tuple[Fraction, Fraction, Fraction]


class NotBuilt(Exception):
    """The program isn't there and can't be built, or doesn't tell changes."""


class Stats(NamedTuple):
    lots: int
    shapes: int
    instances: int
    faults: int
    expanded: int  # by the last accepted edit


class Bill(NamedTuple):
    number: int
    front: Decimal
    volume: Decimal
    unmeasured: int


class Fault(NamedTuple):
    lot: str
    path: str
    symbol: str
    cause: str


class Step(NamedTuple):
    lot: str
    path: str
    symbol: str
    noparent: str  # the answer, or "-" where it wasn't asked
    active: str
    result: str  # the number of children, or the fault


class Instance(NamedTuple):
    """A solid as cga_live tells it, each field as its text, so that equal solids are equal."""

    lot: str
    symbol: str
    kind: str
    x: str
    y: str
    z: str
    axes: str  # where the scope's X, Y and Z point, as "-Z+Y+X"
    w: str
    h: str
    d: str

    @property
    def corner(self) -> Numbers:
        return Fraction(self.x), Fraction(self.y), Fraction(self.z)

    @property
    def size(self) -> Numbers:
        return Fraction(self.w), Fraction(self.h), Fraction(self.d)

    @property
    def directions(self) -> Tuple[Tuple[int, ...], ...]:
        """The scope's X, Y and Z in the world."""
        pairs = zip(self.axes[::2], self.axes[1::2])
        return tuple(tuple((1 if sign == "+" else -1) if axis == name else 0 for axis in "XYZ") for sign, name in pairs)


class Changes(NamedTuple):
    gone: List[Instance]
    come: List[Instance]


class City:
    """`with City() as city:` runs the program; City(live=True) runs cga_live, which tells what each edit changed. Where it isn't
    proved yet, it is built without a proof once, in a minute or two, and a line on standard error says so.

    A program that writes nothing for `patience` seconds, while it is asked, is ended, and Ended is raised.
    """

    def __init__(self, program: Optional[str] = None, live: bool = False, patience: float = 120.0) -> None:
        self.is_live, self._changes = live, Changes([], [])
        self._pipe = Pipe([program or built(live)], patience)
        self._pipe.write(VERSION.encode() + b"\n" + FENCE)
        self._expect("# ok")
        self._expect(FENCE_REPLY)

    def __enter__(self) -> "City":
        return self

    def __exit__(
        self, kind: Optional[Type[BaseException]], fault: Optional[BaseException], trace: Optional[TracebackType]
    ) -> None:
        self.close()

    def close(self) -> None:
        """Ends the program; a City that is closed raises Ended."""
        self._pipe.close()

    def _reply(self) -> List[str]:
        """The reply to one command, up to the fence behind it; changes are kept aside."""
        reply = [self._pipe.line()]
        counted = COUNTED.fullmatch(reply[0])
        if reply[0].startswith("# cga_city obj"):
            for line in iter(self._pipe.line, FENCE_REPLY):
                reply.append(line)
            return reply
        if reply[0] in ("rules", VERSION):
            reply += [*iter(self._pipe.line, "end"), "end"]
        elif counted:
            reply += self._pipe.lines(int(counted.group(1)))
        self._take_changes()
        return reply

    def _take_changes(self) -> None:
        line = self._pipe.line()
        changed = CHANGED.fullmatch(line)
        if changed:
            for kept, number in zip(self._changes, changed.groups()):
                kept += [Instance(*told[2:].split(" ")) for told in self._pipe.lines(int(number))]
            line = self._pipe.line()
        self._expect(FENCE_REPLY, line)

    def _expect(self, wanted: str, line: Optional[str] = None) -> None:
        line = self._pipe.line() if line is None else line
        if line != wanted:
            raise self._pipe.end(f"the program isn't one that replies to scripts: it said {line!r}, and not {wanted!r}")

    def _exchange(self, lines: List[str]) -> List[str]:
        self._pipe.write(text_of(lines) + FENCE)
        try:
            return self._reply()
        except BaseException:
            self._pipe.end("")  # what is left of the reply would be taken for the next one
            raise

    def ask(self, command: str) -> List[str]:
        """The lines of the reply to one line or block, be it refused or not."""
        found = cut(command)
        if len(found) != 1:
            raise ValueError(f"one command is asked at a time, and here are {len(found)}")
        if is_passed_over(found[0]):
            raise ValueError("a City needs each reply, and has said its version: leave out `quiet` and `version`")
        return self._exchange(found[0])

    def do(self, script: str) -> List[List[str]]:
        """Does lines and blocks one after the other, and raises the first refusal; the replies, but of `quiet` and `version`."""
        replies = []
        for lines in cut(script):
            if is_passed_over(lines):
                continue
            replies.append(self._exchange(lines))
            if replies[-1][0].startswith("# refused "):
                raise refused(replies[-1][0], lines)
        return replies

    def _report(self, command: str) -> List[str]:
        (reply,) = self.do(command)
        return reply

    def obj(self, lot: str = "") -> str:
        """The OBJ text of the town, or of one lot."""
        return "\n".join(self._report(f"print {lot}".strip())) + "\n"

    def stats(self) -> Stats:
        words = self._report("stats")[0].split()[2:]
        return Stats(**dict(zip(words[::2], map(int, words[1::2]))))

    def bill(self) -> Dict[str, Bill]:
        """For each symbol that draws the number of its solids, their fronts and volumes."""
        rows = (line.split()[2:] for line in self._report("bill")[1:])
        return {row[0]: Bill(int(row[1]), Decimal(row[2]), Decimal(row[3]), int(row[4])) for row in rows}

    def faults(self) -> List[Fault]:
        return [Fault(*line.split()[2:]) for line in self._report("faults")[1:]]

    def trace(self) -> List[Step]:
        return [Step(*line.split()[2:]) for line in self._report("trace")[1:]]

    def dump(self) -> str:
        """A script that gives the town again."""
        return "\n".join(self._report("dump")) + "\n"

    def attributes(self) -> Dict[str, Fraction]:
        """The attributes and their values."""
        found = (re.fullmatch(r"attr (\w+) = (.*)", line) for line in self._report("grammar"))
        return {told.group(1): Fraction(told.group(2)) for told in found if told}

    def changes(self) -> Changes:
        """What went and came since this was asked last, each as often as it did."""
        if not self.is_live:
            raise NotBuilt("cga_city doesn't tell what an edit changes: begin with City(live=True)")
        told, self._changes = self._changes, Changes([], [])
        return told


def built(live: bool) -> str:
    """The proved program; where it isn't here, one that is built without a proof at the first call, and a line says so."""
    try:
        return ready(name="cga_live" if live else "cga_main")
    except CannotBuild as fault:
        raise NotBuilt(str(fault)) from None


def is_passed_over(lines: List[str]) -> bool:
    return words_of(lines[0]) in PASSED_OVER


def cut(script: str) -> List[List[str]]:
    """The lines of each command; a block that isn't closed is refused before it is sent, since no reply would come."""
    lines = [VERSION, *lines_of(script.encode("utf-8", "surrogateescape"))]
    found = commands(lines)[1:]
    if found and is_open(found[-1], lines):
        raise refused("# refused OpenBlock", lines[found[-1].first :])
    return [lines[command.first : command.last + 1] for command in found]
