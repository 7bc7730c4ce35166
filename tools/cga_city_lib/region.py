"""A script as a region: the lines that each job has, and the lots, of which each job has some."""
from pathlib import Path
from typing import Any, Dict, List, NamedTuple, Sequence, Tuple, Union

from .call import Refused
from .exact import over_one, parted
from .lot_lines import unusual, usual
from .lot_table import Lines, LotTable
from .script import LONGEST, commands, is_open, is_version, opens_block, words_of
from .script import END as END_LINE

Box = Tuple[int, ...]
CITY = "rules city put drop attr priority order".split()  # a dump says them again
DRESSED = "asset dress undress".split()  # of these it says nothing
COUNTED = "bill model".split()  # each job is asked for these where the script is
LEFT_OUT = "quiet print faults grammar stats".split()  # each job has them anyway
LEAST, MOST = 1 << 12, 1 << 20  # bytes of lines that are read at once

AT_END = "write the script as it is to be in the end; where the town fits into one run, `dump` writes it so"
NOT_JOINED = "it tells of the whole town, and isn't joined: leave it out"
INSTEAD = {
    "unlot": "leave the lot's own line out",
    "undo": AT_END,
    "redo": AT_END,
    **dict.fromkeys(["trace", "judge", "dump"], NOT_JOINED),
}
NO_LOT = "a lot is written `lot NAME SEED X Z WIDTH DEPTH SYMBOL`, perhaps with `turned DEGREES` behind"
UNREAD = "a lot's number divides by zero, or the reach is no number; tools/lint says which"


class Line(NamedTuple):
    """A line that is no lot, with its number from 0; or some lots that follow each other, as a line `lot`, with the number of the
    first one's line. The lots are those from `first` on, as many as `lots` says."""

    text: str
    at: int
    first: int
    lots: int


class Reader:
    """Reads a script: lots into a table, all others as they stand. In a block that isn't `city` no line is a lot."""

    def __init__(self, data: bytes) -> None:
        self.data, self.table = data, LotTable(data)
        self.lines: List[Line] = []
        self.is_in_block, self.number = False, 0  # of the line that is read

    def read(self) -> List[Line]:
        begin, size, block = 0, len(self.data), LEAST
        while begin < size:
            end = self.data.rfind(b"\n", begin, begin + block) + 1 or self.data.find(b"\n", begin) + 1 or size
            number = 0 if self.is_in_block else self.table.take_block(begin, end)
            if number:
                self.add_lots(number)
                self.number += number
            else:
                self.read_lines(begin, end)
            begin, block = end, min(2 * block, MOST) if number else LEAST
        return self.lines

    def read_lines(self, begin: int, end: int) -> None:
        """The lines of a block, each by itself."""
        for line in self.data[begin:end].decode("latin-1").split("\n"):
            if line or begin < end:
                self.read_line(begin, line[:-1] if line.endswith("\r") else line)
                self.number += 1
            begin += len(line) + 1

    def read_line(self, begin: int, line: str) -> None:
        if self.is_in_block:
            self.is_in_block = not (len(line) <= LONGEST and END_LINE.fullmatch(line))
            self.lines.append(Line(line, self.number, len(self.table), 0))
            return
        lot = usual(line)
        words = words_of(line) if lot is None and len(line) <= LONGEST else []
        lot = unusual(line) if words[:1] == ["lot"] else lot
        if lot:
            self.table.take(begin, lot, line)
            self.add_lots(1)
        else:
            self.is_in_block = opens_block(words, True) and words != ["city"]
            self.lines.append(Line(line, self.number, len(self.table), 0))

    def add_lots(self, number: int) -> None:
        """The last lots of the table follow what was read before."""
        last = self.lines[-1] if self.lines else None
        if last and last.lots:
            self.lines[-1] = last._replace(lots=last.lots + number)
        else:
            self.lines.append(Line("lot", self.number, len(self.table) - number, number))


class Region:
    """The head is the lines before the lots, by their places in the script; the lots are a table."""

    def __init__(self, path: Union[str, Path], has_lots: bool = True):
        self.path, self.data = path, Path(path).read_bytes()
        reader = Reader(self.data)
        self.read, self.table = reader.read(), reader.table
        self.lines: Dict[int, str] = {line.at: line.text for line in self.read if not line.lots}
        self.lots, self.names, self.angles = Lines(self.table), Lines(self.table, True), self.table.angles
        self.city: List[int] = []
        self.dressed: List[int] = []
        self.counted: List[str] = []
        self.twice = self.table.twice()
        short = [line.text for line in self.read]
        first, *others = commands(short) or [None]
        if first is None or not is_version(first.words):
            raise self.refused(
                self.read[first.first].at if first else 0, "a script that is cut has `version 2` as its first line"
            )
        for command in others:
            self.take(command, is_open(command, short))
        if has_lots and not self.table:
            raise Refused(f"{path}: no lot is there")

    def refused(self, at: int, why: str) -> Refused:
        return Refused(f"{self.path}:{at + 1}: {why}")

    def take(self, command: Any, is_left_open: bool) -> None:
        head, line = (command.words or [""])[0], self.read[command.first]
        if line.lots:
            self.take_lots(line)
        elif head == "lot":
            raise self.refused(line.at, NO_LOT)
        elif is_left_open:
            raise self.refused(line.at, "no line `end` ends this block")
        elif head in CITY + DRESSED:
            self.take_head(command, head, line)
        elif command.words in [[word] for word in COUNTED]:
            self.counted.append(head)
        elif head not in LEFT_OUT:
            why = (
                f"`{head}` can't stand in a script that is cut: {INSTEAD[head]}"
                if head in INSTEAD
                else "tools/lint says what is wrong"
            )
            raise self.refused(line.at, why)

    def take_head(self, command: Any, head: str, first: Line) -> None:
        if first.first:
            raise self.refused(first.at, f"`{head}` stands behind a lot: put it before the first one, or {AT_END}")
        taken = self.dressed if head in DRESSED else self.city
        for line in self.read[command.first : command.last + 1]:
            if line.lots:
                self.take_lots(line)
            elif command.words == ["city"] and line.text.split()[:1] == ["lot"]:
                raise self.refused(line.at, NO_LOT)
            else:
                taken.append(line.at)

    def take_lots(self, line: Line) -> None:
        if self.twice is not None and line.first <= self.twice < line.first + line.lots:
            raise self.refused(
                self.table.number_of(self.twice),
                f"the lot `{self.names[self.twice]}` stands here twice: keep the later line, at the place of the first",
            )

    def grounds(self, reach: str = "0") -> Tuple[int, Sequence[Box]]:
        """The grounds, with so much more on each side, as boxes over one denominator, which comes first. Each is told in the
        frame of its lot's angle."""
        try:
            more = parted(reach)
        except ValueError as fault:
            more, self.table.fault = (0, 1), fault
        if self.table.fault:
            raise Refused(f"{self.path}: {UNREAD}")
        return self.table.grounds(more)


def grounds_of(path: Union[str, Path], columns: Sequence[List[str]], reach: str) -> Tuple[int, List[Box]]:
    """The same of columns of numbers as they are spelt."""
    try:
        one, (*whole, (more,)) = over_one([*columns, [reach]])
    except ValueError:
        raise Refused(f"{path}: {UNREAD}") from None
    return one, [(x - more, x + width + more, z - more, z + depth + more) for x, z, width, depth in zip(*whole)]
