"""The script of a port, as a text: attributes, numbered rules with their comments, lots, meshes; and its file of colours."""
import json
from fractions import Fraction
from pathlib import Path
from typing import Dict, Iterator, List, Optional, Tuple

from .context import Line
from .forms import State
from .look import entry
from .lost import whole
from .rules import Port
from .starts import starting
from .tokens import Comment
from .tree import Attribute, Declaration, Function, Rule, Unread
from .values import number_text

STEP = 10  # between the numbers of rules, so that one fits between
LOTS, GAP = 3, 6


class Script:
    """What a port comes to."""

    def __init__(
        self, path: Path, declared: List[Declaration], comments: List[Comment], size: Tuple[Fraction, Fraction]
    ):
        self.port, self.comments, self.size, self.path = Port(path, declared), comments, size, path
        self.port.work()
        start = self.port.start()
        symbol = self.port.variant(start.name, State("ground"))
        self.first, self.beginning = starting(self.port, start, symbol)
        self.rules, self.left = 0, list(declared)

    def text(self) -> str:
        sections = self.sections()
        heads = ["version 2", "quiet", *self.title(), "rules", *self.attributes()]
        ends = [*self.left_out(None), "end", *self.rest()]
        return "\n".join([*heads, *self.numbered(sections), *ends]) + "\n"

    def title(self) -> List[str]:
        first = min(one.line for one in self.port.declared)
        head = [one for one in self.comments if one.line < first]
        self.comments = [one for one in self.comments if one not in head]
        texts = [text for comment in head for text in comment.texts]
        return [f"# {whole(self.path.name)} of CityEngine, by tools/port", *(f"# {whole(text)}" for text in texts)]

    # ---- what stands above the rules

    def attributes(self) -> Iterator[str]:
        known = self.port.known
        for name, value in sorted(known.used.items(), key=lambda item: self.port.attributes[item[0]].line):
            yield from self.comments_above(self.port.attributes[name].line)
            yield f"attr {known.names.of(name)} = {number_text(value).text}{self.said_of(name)}"
        for name, (value, why) in self.port.rises.items():
            yield f"attr {known.names.of(name)} = {number_text(value).text}  # {why}"

    def said_of(self, name: str) -> str:
        """The texts that an attribute's numbers stand for, and how it is derived."""
        attribute = self.port.attributes[name]
        settled = self.port.known.settled(attribute.value, True)
        if isinstance(settled, str):
            return "  # " + ", ".join(f"{at} {whole(text)}" for at, text in enumerate(self.port.known.texts, 1))
        notes = [part for part in attribute.annotations if part.startswith(("@Range", "@Enum", "@Description"))]
        is_plain = self.port.known.settled(attribute.value) is not None
        said = notes if is_plain else [*notes, f"{whole(attribute.written)}, which it doesn't follow"]
        return "  # " + ", ".join(said) if said else ""

    def left_out(self, line: Optional[int]) -> List[str]:
        """The declarations above a line that no rule of the script has use for, each with its reason; all if none is told."""
        above: List[str] = []
        for one in [one for one in self.left if line is None or one.line < line]:
            self.left.remove(one)
            reason = self.reason(one)
            if reason:
                above += self.comments_above(one.line)
                self.port.remarks.lost(one.line, getattr(one, "written", ""), reason)
        return [*above, *self.port.remarks.taken()]

    def reason(self, one: Declaration) -> str:
        port = self.port
        if isinstance(one, Unread):
            return one.reason
        if isinstance(one, Rule):
            return "" if any(name == one.name for name, _ in port.variants) else "no lot comes to it"
        if isinstance(one, Attribute) and one.name not in port.known.used and one.name not in port.carried.names:
            is_text = isinstance(port.known.settled(one.value, True), str)
            return "" if is_text or self.is_written_out(one.name) else "no rule of the script reads it"
        return ""

    def is_written_out(self, name: str) -> bool:
        """Whether rules read an attribute that is derived from others, or in whose place its value stands."""
        reads = {read for own in self.port.traits.own.values() for read, _ in own.names}
        values = [one.value for one in self.port.declared if isinstance(one, (Attribute, Function))]
        return name in reads or any(name in told_names(value) for value in values)

    # ---- rules

    def sections(self) -> Dict[int, List[Line]]:
        """The rules by priority: what asks about other shapes waits until these are there."""
        order = sorted(self.port.lines.items(), key=lambda item: self.port.rules[item[0][0]].line)
        lines = [*self.beginning]
        for (name, _), own in order:
            line = self.port.rules[name].line
            above = [*self.left_out(line), *self.comments_above(line)]
            lines += [own[0]._replace(comments=[*above, *own[0].comments]), *own[1:]] if own else []
        lines += self.port.ending
        asking = {line.symbol for line in lines if "Scope.occ" in line.condition}
        found = {
            1: [line for line in lines if line.symbol not in asking],
            2: [line for line in lines if line.symbol in asking],
        }
        return {priority: own for priority, own in found.items() if own}

    def comments_above(self, line: int) -> List[str]:
        """The comments of the file between the declaration before one and the one behind it, once."""
        lines = [one.line for one in self.port.declared]
        before = max((other for other in lines if other < line), default=0)
        after = min((other for other in lines if other > line), default=line + 1)
        mine = [one for one in self.comments if before < one.line < line or line <= one.line < after - 1]
        self.comments = [one for one in self.comments if one not in mine]
        return [f"# {whole(text)}" for comment in mine for text in comment.texts]

    def numbered(self, sections: Dict[int, List[Line]]) -> Iterator[str]:
        for priority, lines in sections.items():
            yield f"PRIORITY {priority}:"
            for line in lines:
                self.rules += 1
                yield from line.comments
                yield f"{self.rules * STEP}: {rule_text(line)}"

    # ---- what stands below them

    def rest(self) -> Iterator[str]:
        width, depth = self.size
        for at in range(LOTS):
            place = number_text(at * (width + GAP)).text
            yield f"lot lot_{at + 1} {at + 1} {place} 0 {number_text(width).text} {number_text(depth).text} {self.first}"
        for mesh in self.port.meshes.found.values():
            yield from [f"asset {mesh.name}", *mesh.lines, "end"]
        for symbol, mesh_name in self.port.meshes.symbols.items():
            yield f"dress {symbol} {mesh_name}"
        yield "model" if self.port.meshes.symbols else "print"

    def colours(self) -> Optional[bytes]:
        """The file of colours; nothing where the rules set none."""
        entries = {symbol: entry(look) for symbol, look in self.port.looks.items() if entry(look)}
        return (json.dumps(entries, indent=2) + "\n").encode() if entries else None


def told_names(value: object) -> List[str]:
    from .traits import names_in

    return list(names_in(value))


def rule_text(line: Line) -> str:
    condition = f" : {line.condition}" if line.condition else ""
    bodies = [
        f" -> {text}" + (f" : {number_text(share).text}" if share is not None and share != 1 else "")
        for text, share in line.alternatives
    ]
    return line.head() + condition + "".join(bodies)
