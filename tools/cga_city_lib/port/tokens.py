"""The tokens of a CGA file, each with its line; and its comments."""
import re
from typing import List, NamedTuple, Tuple

from ..call import Refused
from ..strangers_text import told

TOKEN = re.compile(
    r"""(?P<space>\s+|\ufeff)
    | (?P<comment>//[^\n]*|/\*.*?(?:\*/|\Z)|\#[^\n]*)
    | (?P<number>(?:\d+(?:\.\d+)?|\.\d+)(?:[eE][-+]?\d+)?(?:(?:mm|cm|km|m|ft|in)\b)?)
    | (?P<text>"(?:[^"\\\n]|\\.)*")
    | (?P<word>[A-Za-z_]\w*(?:\.[A-Za-z_]\w*)*)
    | (?P<sign>-->|&&|\|\||==|!=|<=|>=|[-+*/%!<>=(){}\[\]|:,'~@.;])""",
    re.VERBOSE | re.DOTALL | re.ASCII,
)


class Token(NamedTuple):
    """A kind (`number`, `text`, `word`, `sign`), what is written, and the line, from 1."""

    kind: str
    text: str
    line: int


class Comment(NamedTuple):
    """The line where it begins, and its lines without their marks."""

    line: int
    texts: List[str]


def comment_of(line: int, text: str) -> Comment:
    inner = re.sub(r"\*/$", "", text[2:]) if text.startswith("/*") else text.lstrip("/#")
    lines = [re.sub(r"^[\s*]+|\s+$", "", part) for part in inner.split("\n")]
    return Comment(line, [part for part in lines if part])


def tokens_of(path: str, text: str) -> Tuple[List[Token], List[Comment]]:
    """All tokens and all comments of a file."""
    found, comments, at, line = [], [], 0, 1
    while at < len(text):
        part = TOKEN.match(text, at)
        if not part:
            raise Refused(f"{path}:{line}: `{told(text[at])}` begins no word, number, text or sign of CGA")
        if part.lastgroup == "comment":
            comments.append(comment_of(line, part.group()))
        elif part.lastgroup != "space":
            found.append(Token(part.lastgroup or "", part.group(), line))
        at, line = part.end(), line + part.group().count("\n")
    return found, comments
