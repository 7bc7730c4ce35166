"""The lots of a script, a few bytes each beside the script's own: where each line begins, and its numbers as whole ones over one
denominator. Lines that are spelt as usual are read many at a time."""
from array import array
from math import gcd
from typing import Dict, Iterable, Iterator, List, Match, MutableSequence, Optional, Sequence, Tuple, Union

from .exact import parted
from .lot_lines import LINES, angle, plain, usual
from .script import LONGEST

Box = Tuple[int, ...]
Column = MutableSequence[int]  # an array; a list where a number is too large for one
DUPLICATES = 8  # runs over the names, so that an eighth is held at once


class LotTable:
    """Of each lot where its line begins in the data, X, Z, width and depth over `one`, the angle, and a hash of its name. The lines
    of lots that aren't spelt as usual are kept."""

    def __init__(self, data: bytes) -> None:
        self.data, self.one = data, 1
        self.begins, self.angles, self.hashes = array("Q"), array("d"), array("q")
        self.numbers: List[Column] = [array("q") for _ in range(4)]
        self.spelt: Dict[int, str] = {}
        self.fault: Optional[ValueError] = None  # of a number that is none
        self.known: Dict[bytes, Tuple[int, int]] = {}
        self.is_turned = False  # whether a line says so

    def __len__(self) -> int:
        return len(self.begins)

    # ---- reading

    def take_block(self, begin: int, end: int) -> int:
        """Takes the lots of a block of lines, if all its lines are lots as usual; how many these are."""
        block = self.data[begin:end]
        rows, lines = LINES.findall(block), block.split(b"\n")
        lines.pop()
        lengths = list(map(len, lines))
        if not rows or len(rows) != len(lines) or max(lengths) > LONGEST:
            return 0
        names, _, *columns, _, turns = zip(*rows)
        at = begin
        for length in lengths:
            self.begins.append(at)
            at += length + 1
        self.hashes.extend(map(hash, names))
        self.take_numbers(columns)
        self.is_turned |= any(turns)
        self.angles.extend([float(turn or 0) for turn in turns] if any(turns) else [0.0] * len(rows))
        return len(rows)

    def take(self, begin: int, lot: Match[str], line: str) -> None:
        """Takes the lot whose line begins there."""
        if usual(line) is None:
            self.spelt[len(self.begins)] = plain(lot)
        self.begins.append(begin)
        self.hashes.append(hash(lot.group(1).encode()))
        self.take_numbers([(text.encode(),) for text in lot.group(3, 4, 5, 6)])
        self.angles.append(angle(lot))
        self.is_turned |= bool(lot.group(8))

    def take_numbers(self, columns: Sequence[Sequence[bytes]]) -> None:
        before = len(self.numbers[0])
        try:
            if self.one == 1:
                for column, texts in zip(self.numbers, columns):
                    column.extend(list(map(int, texts)))
                return
        except (ValueError, OverflowError):
            self.shorten(before)
        try:
            self.take_parted([[self.parted(text) for text in texts] for texts in columns])
        except ValueError as fault:
            self.fault = self.fault or fault

    def shorten(self, number: int) -> None:
        """Takes away what was taken of a block before a number couldn't be."""
        for column in self.numbers:
            del column[number:]

    def parted(self, text: bytes) -> Tuple[int, int]:
        found = self.known.get(text)
        if found is None:
            if len(self.known) > 1 << 16:
                self.known.clear()
            found = self.known[text] = parted(text.decode())
        return found

    def take_parted(self, columns: Sequence[Sequence[Tuple[int, int]]]) -> None:
        one = self.one
        for denominator in {denominator for column in columns for _, denominator in column}:
            one = one * denominator // gcd(one, denominator)
        if one != self.one:
            by, self.one = one // self.one, one
            self.numbers = [column_of(number * by for number in column) for column in self.numbers]
        before = len(self.numbers[0])
        found = [[numerator * (one // denominator) for numerator, denominator in column] for column in columns]
        try:
            for column, numbers in zip(self.numbers, found):
                column.extend(numbers)
        except OverflowError:
            self.shorten(before)
            self.numbers = [list(column) for column in self.numbers]
            for column, numbers in zip(self.numbers, found):
                column.extend(numbers)

    # ---- what is asked of it

    def line(self, at: int) -> str:
        """The lot's line as the program takes it."""
        begin = self.begins[at]
        if at in self.spelt:
            return self.spelt[at]
        end = self.data.find(b"\n", begin)
        line = self.data[begin : end if end >= 0 else len(self.data)].decode("latin-1").rstrip("\r")
        return line.partition(" turned ")[0] if self.is_turned else line

    def name(self, at: int) -> str:
        return self.line(at).split(" ", 2)[1]

    def number_of(self, at: int) -> int:
        """The number of the line, from 0."""
        return self.data.count(b"\n", 0, self.begins[at])

    def twice(self) -> Optional[int]:
        """The first lot whose name an earlier one has."""
        return next(self.again(), None)

    def again(self) -> Iterator[int]:
        """The lots whose name an earlier one has."""
        alike: Dict[int, int] = {}
        for part in range(DUPLICATES):
            hashes = [number for number in self.hashes if number % DUPLICATES == part]
            if len(set(hashes)) < len(hashes):
                for number in hashes:
                    alike[number] = alike.get(number, 0) + 1
        shared = {number for number, times in alike.items() if times > 1}
        names = set()
        for at, number in enumerate(self.hashes) if shared else ():
            if number in shared:
                if self.name(at) in names:
                    yield at
                names.add(self.name(at))

    def grounds(self, reach: Tuple[int, int]) -> Tuple[int, "Grounds"]:
        numerator, denominator = reach
        one = self.one * denominator // gcd(self.one, denominator)
        return one, Grounds(self.numbers, one // self.one, numerator * (one // denominator))


def column_of(numbers: Iterable[int]) -> Column:
    found = list(numbers)
    try:
        return array("q", found)
    except OverflowError:
        return found


class Grounds(Sequence[Box]):
    """The grounds of lots, made as they are asked for, with so much more on each side."""

    def __init__(self, numbers: Sequence[Sequence[int]], by: int, more: int) -> None:
        self.x, self.z, self.width, self.depth = numbers
        self.by, self.more = by, more

    def __len__(self) -> int:
        return len(self.x)

    def __getitem__(self, at: Union[int, slice]) -> Box:  # type: ignore[override]
        more, by = self.more, self.by
        x, z = self.x[at] * by - more, self.z[at] * by - more  # type: ignore[operator]
        more *= 2
        return x, x + self.width[at] * by + more, z, z + self.depth[at] * by + more  # type: ignore[operator]


class Lines(Sequence[str]):
    """The lines of lots, or their names, made as they are asked for."""

    def __init__(self, table: LotTable, are_names: bool = False) -> None:
        self.table, self.of = table, table.name if are_names else table.line

    def __len__(self) -> int:
        return len(self.table)

    def __getitem__(self, at: Union[int, slice]) -> str:  # type: ignore[override]
        return self.of(at)  # type: ignore[arg-type]
