"""USD as text: prims with their properties and children, and numbers, names and lists as that format writes them."""
import json
import re
from typing import Any, Dict, Iterable, Iterator, List, NamedTuple, Sequence, Tuple

INDENT = "    "
IN_A_LINE = 64  # entries of a list


class Prim(NamedTuple):
    """A prim, as `def Xform "a"`. The head stands in brackets behind the name; the lines are its properties."""

    kind: str
    name: str
    lines: List[str]
    children: "Iterable[Prim]" = ()
    head: Sequence[str] = ()


class Names:
    """Names that the format takes, each once: of letters, digits and underscores, and not with a digit at the beginning."""

    def __init__(self) -> None:
        self.taken: Dict[str, str] = {}

    def of(self, text: str) -> str:
        if text not in self.taken:
            plain = re.sub(r"\W", "_", text, flags=re.ASCII)
            plain = plain if re.match("[A-Za-z_]", plain) else f"_{plain}"
            found, number, known = plain, 1, set(self.taken.values())
            while found in known:
                number += 1
                found = f"{plain}_{number}"
            self.taken[text] = found
        return self.taken[text]


def number(value: float) -> str:
    """As a float of 32 bits needs it."""
    return f"{value + 0.0:.9g}"


def tuple_of(values: Iterable[float]) -> str:
    return f"({', '.join(map(number, values))})"


def quoted(text: str) -> str:
    return json.dumps(text, ensure_ascii=False)


def array_of(texts: Sequence[str]) -> str:
    """A list, broken into lines."""
    rows = [", ".join(texts[at : at + IN_A_LINE]) for at in range(0, len(texts), IN_A_LINE)]
    return f"[{(',' + chr(10)).join(rows)}]"


def dictionary(values: Dict[str, Any]) -> List[str]:
    """The lines of a dictionary's entries: numbers, texts, lists of numbers, and dictionaries."""
    lines: List[str] = []
    for name, value in values.items():
        if isinstance(value, dict):
            lines += [f"dictionary {name} = {{", *(INDENT + line for line in dictionary(value)), "}"]
        elif isinstance(value, str):
            lines.append(f"string {name} = {quoted(value)}")
        elif isinstance(value, (list, tuple)):
            lines.append(f"double[] {name} = [{', '.join(map(repr, map(float, value)))}]")
        else:
            lines.append(f"double {name} = {float(value)!r}")
    return lines


def text_of(prim: Prim, depth: int = 0) -> Iterator[str]:
    """The lines of a prim and of all below it."""
    before, within = INDENT * depth, INDENT * (depth + 1)
    yield f'{before}def {prim.kind} "{prim.name}"' + (" (" if prim.head else "")
    if prim.head:
        yield from (within + line for line in prim.head)
        yield f"{before})"
    yield f"{before}{{"
    yield from (within + line for line in prim.lines)
    for child in prim.children:
        yield from text_of(child, depth + 1)
    yield f"{before}}}"


def box_of(points: Sequence[Tuple[float, ...]]) -> str:
    axes = list(zip(*points))
    return f"[{tuple_of(map(min, axes))}, {tuple_of(map(max, axes))}]"
