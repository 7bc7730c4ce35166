"""What a tool was given: a script, or the OBJ text of a town. Anything else is refused with what was found."""
import re
from typing import NamedTuple, Optional

from .call import Refused
from .script import BLOCK_WORDS, COMMANDS, COMMANDS_2
from .strangers_text import told

HEAD = 1 << 16  # bytes that tell of most files what they are
RUN = b"# cga_city obj"
MARKS = {
    b"glTF": "a glTF file",
    b"\x89PNG": "a PNG picture",
    b"\xff\xd8\xff": "a JPEG picture",
    b"%PDF": "a PDF document",
    b"PK\x03\x04": "a ZIP archive",
    b"\x1f\x8b": "a gzip archive",
    b"BLENDER": "a file of Blender",
    b"\xff\xfe": "text in UTF-16",
    b"\xfe\xff": "text in UTF-16",
}
SIGNS = {"<": "HTML, SVG or XML", "{": "JSON", "[": "JSON"}
OF_OBJ = set("o g v f vn vt vp s l p usemtl mtllib".split())
OF_SCRIPT = set(COMMANDS + COMMANDS_2 + BLOCK_WORDS)
REPLY = re.compile(r"# (ok|refused \w+|stats lots|faults \d+|bill \d+|trace \d+|accepted|rejected)\b")
RULE = re.compile(r"\d+(\.0+)?[ \t]*:.*->")
CGA = re.compile(rb"^[ \t]*\w+[ \t]*(\([^()]*\))?[ \t]*-->", re.MULTILINE)
OPENS = re.compile(rb"^[ \t]*(rules|city)[ \t\r]*(#.*)?$", re.MULTILINE)
CALL = "give a script, or the OBJ text that `./cga_city < SCRIPT` prints"


class Given(NamedTuple):
    """A file that was read, and whether it is a script."""

    path: str
    data: bytes
    is_script: bool

    def text(self) -> str:
        return self.data.decode("utf-8", "replace")


def given(path: str) -> Given:
    with open(path, "rb") as file:
        data = file.read()
    kind = kind_of(data)
    if kind is None:
        raise Refused(f"{path} {what_else(data)}")
    return Given(path, data, kind == "script")


def is_binary(data: bytes) -> bool:
    return b"\0" in data[:HEAD] or any(data.startswith(mark) for mark in MARKS)


def kind_of(data: bytes) -> Optional[str]:
    """`script`, `obj`, or nothing where it is neither."""
    if is_binary(data) or is_cga(data):
        return None
    line = first_line(data)
    if line.split(maxsplit=1)[:1] and line.split()[0] in OF_OBJ:
        return "obj"
    if data.startswith(RUN) or b"\n" + RUN in data:
        return "obj"
    word = re.match(r"[A-Za-z]+(?=[ \t#]|$)", line)
    return "script" if word and word.group() in OF_SCRIPT else None


def is_cga(data: bytes) -> bool:
    """Whether a rule stands in it as CityEngine's CGA writes it, by `-->`, and no block is opened."""
    return CGA.search(data) is not None and OPENS.search(data) is None


def first_line(data: bytes) -> str:
    """The first line that is neither blank nor a comment."""
    for line in data[:HEAD].decode("utf-8-sig", "replace").split("\n"):
        if line.strip() and not line.lstrip().startswith("#"):
            return line.strip()
    return ""


def what_else(data: bytes, call: str = CALL) -> str:
    """A predicate that says what was found in a file that is neither, and what to do."""
    mark = next((told for mark, told in MARKS.items() if data.startswith(mark)), None)
    line = first_line(data)
    if not data.strip():
        return f"is empty: {call}"
    if mark or b"\0" in data[:HEAD]:
        return f"is {mark or 'a binary file'}: {call}"
    if is_cga(data):
        return "has rules of CityEngine's CGA, of which tools/port makes a script"
    if line[:1] in SIGNS:
        return f"is {SIGNS[line[:1]]}: {call}"
    if RULE.match(line):
        return "has rules without a block: write a line `rules` before them, and a line `end` behind them"
    if not line and any(map(REPLY.match, data[:HEAD].decode("utf-8", "replace").split("\n"))):
        return "has replies and no town: give the script itself, or end it by a line `print`"
    if not line:
        return f"has comments alone: {call}"
    return f"is no script and no OBJ text, since its first line is `{told(line)}`: {call}"
