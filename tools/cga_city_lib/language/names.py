"""Where the names of a script stand: symbols, attributes, parameters, lots and assets."""
import re
from typing import Iterator, List, NamedTuple, Tuple

from ..script import NAME, RESERVED, tokens
from .text import Document

HEADS = {"unlot": ["lot"], "print": ["lot"], "model": ["lot"], "priority": ["symbol"], "undress": ["symbol"]}
HEADS["dress"] = ["symbol", "asset"]
Token = Tuple[int, str]


class Found(NamedTuple):
    """A name at a line, from 0, and a byte, from 1; `says` where the line says what it is. A parameter's line is its scope."""

    kind: str
    name: str
    line: int
    column: int
    says: bool

    def is_same(self, other: "Found") -> bool:
        is_own = self.kind != "parameter" or self.line == other.line
        return self.kind == other.kind and self.name == other.name and is_own


def is_name(word: str) -> bool:
    return bool(NAME.fullmatch(word)) and word not in RESERVED


def names_of(document: Document) -> List[Found]:
    """All names, in the order of the text."""
    return [found for at in range(len(document.lines)) for found in names_in(document, at)]


def names_in(document: Document, at: int) -> Iterator[Found]:
    command, found = document.block_of(at), tokens(document.line(at))
    if not found or command is not None and command.words[0] not in ("rules", "city"):
        return
    head = found[0][1]
    if head == "put" and command is None:
        yield from in_rule(found[2:], at)
    elif head.isdigit() and command is not None:
        yield from in_rule(found, at)
    elif head == "attr" and found[1:]:
        yield Found("attribute", found[1][1], at, found[1][0], command is not None)
    elif head == "lot" and found[1:]:
        yield from in_lot(found, at)
    elif head == "asset" and found[1:]:
        yield Found("asset", found[1][1], at, found[1][0], True)
    else:
        yield from (
            Found(kind, word, at, column, False) for kind, (column, word) in zip(HEADS.get(head, []), found[1:])
        )


def in_lot(found: List[Token], at: int) -> Iterator[Found]:
    yield Found("lot", found[1][1], at, found[1][0], True)
    if len(found) > 2 and is_name(found[-1][1]):
        yield Found("symbol", found[-1][1], at, found[-1][0], False)


def in_rule(found: List[Token], at: int) -> Iterator[Found]:
    """The names of a rule, whose tokens begin with its number."""
    if len(found) < 3 or found[1][1] != ":":
        return
    yield Found("symbol", found[2][1], at, found[2][0], True)
    rest, parameters = found[3:], []
    if rest and rest[0][1] == "(":
        close = next((place for place, (_, word) in enumerate(rest) if word == ")"), len(rest))
        parameters = [word for _, word in rest[1:close] if is_name(word)]
        yield from (Found("parameter", word, at, column, True) for column, word in rest[1:close] if is_name(word))
        rest = rest[close + 1 :]
    yield from in_bodies(rest, parameters, at)


def in_bodies(rest: List[Token], parameters: List[str], at: int) -> Iterator[Found]:
    """Names in round brackets and before the first arrow are values, others symbols."""
    depth, is_condition, before = 0, True, ""
    for column, word in rest:
        depth += (word == "(") - (word == ")")
        is_condition = is_condition and word != "->"
        if is_name(word) and before != ".":
            kind = "symbol" if not depth and not is_condition else "parameter" if word in parameters else "attribute"
            yield Found(kind, word, at, column, False)
        before = word


def at_place(document: Document, at: int, byte: int) -> List[Found]:
    """The name at a byte of a line, if one stands there."""
    return [found for found in names_in(document, at) if found.column <= byte <= found.column + len(found.name)][:1]


def parameters_of(line: str) -> List[str]:
    """The parameters in the head of a rule."""
    head = re.match(r"\s*(?:put\s+\d+\s+)?\d+\s*:\s*\w+\s*\(([^)]*)\)", line, re.ASCII)
    return re.findall(r"[A-Za-z_]\w*", head.group(1)) if head else []
