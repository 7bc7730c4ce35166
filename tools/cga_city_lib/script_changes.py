"""How a script of many lots differs from a former one: blocks of bytes that are the same are passed over, and of the others the lots
that went and those that came are told, each with its place in the script's order."""
from typing import Iterator, List, Match, NamedTuple, Optional

from .lot_lines import usual
from .script import is_blank

BLOCK = 1 << 20  # bytes that are compared at once
FEW = 64  # lines in which the texts are first looked for to meet again
LOT = b"\nlot "


class Hunk(NamedTuple):
    """Bytes of the former text, from `begin` to `end`, in whose place others stand."""

    begin: int
    end: int
    new_begin: int
    new_end: int


class Splice(NamedTuple):
    """The lots that went from a place of the former order, and those that came there."""

    place: int
    gone: List[Match[str]]
    come: List[Match[str]]


def alike(old: bytes, new: bytes, at: int, to: int) -> int:
    """How many bytes are the same from these places on."""
    begin, size = at, BLOCK
    while size:
        piece = old[at : at + size]
        if piece and piece == new[to : to + len(piece)]:
            at, to = at + len(piece), to + len(piece)
        elif size == BLOCK or len(piece) == size or piece:
            size //= 2
        else:
            break
    return at - begin


def lines_from(text: bytes, begin: int, number: int) -> List[bytes]:
    """So many lines, each with what ends it."""
    found: List[bytes] = []
    while begin < len(text) and len(found) < number:
        end = text.find(b"\n", begin) + 1 or len(text)
        found.append(text[begin:end])
        begin = end
    return found


def meet(old: List[bytes], new: List[bytes]) -> Optional[List[int]]:
    """The first places, in both lists, of a line that both have."""
    places = {line: at for at, line in reversed(list(enumerate(old))) if line.strip()}
    found = [[places[line], at] for at, line in enumerate(new) if line in places]
    return min(found, key=sum, default=None)


def hunks(old: bytes, new: bytes) -> Iterator[Hunk]:
    at = to = 0
    while True:
        same = alike(old, new, at, to)
        if at + same == len(old) and to + same == len(new):
            return
        begin = max(at, old.rfind(b"\n", 0, at + same) + 1)
        to, at = to + begin - at, begin
        number = FEW
        while True:
            lines, others = lines_from(old, at, number), lines_from(new, to, number)
            met = meet(lines, others)
            if met or len(lines) < number and len(others) < number:
                break
            number *= 4
        ends = [sum(map(len, some[:end])) for some, end in zip((lines, others), met or (None, None))]
        yield Hunk(at, at + ends[0], to, to + ends[1])
        at, to = at + ends[0], to + ends[1]


class OtherLines(Exception):
    """Something else than lots, blank lines and comments changed."""


def lots_in(text: bytes) -> List[Match[str]]:
    found = []
    for line in text.decode("latin-1").split("\n"):
        line = line[:-1] if line.endswith("\r") else line
        lot = usual(line)
        if lot:
            found.append(lot)
        elif not is_blank(line):
            raise OtherLines
    return found


def splices(old: bytes, new: bytes, first: int, most: int) -> Iterator[Splice]:
    """The changes of lots, at most so many, in the order of their places. `first` is where the first lot began; each line of the
    former text that begins with `lot` is one, and one of the new text has to be."""
    place, counted, number = 0, first, 0
    for hunk in hunks(old, new):
        if hunk.begin < first:
            raise OtherLines
        place, counted = place + old.count(LOT, counted - 1, hunk.begin + 3), hunk.begin
        gone, come = lots_in(old[hunk.begin : hunk.end]), lots_in(new[hunk.new_begin : hunk.new_end])
        number += len(gone) + len(come)
        if number > most:
            raise OtherLines
        yield Splice(place, gone, come)
