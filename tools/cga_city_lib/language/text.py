"""A script as an editor has it. An editor counts columns from 0 in units of UTF-16, the tools bytes from 1."""
from typing import Dict, List, Optional

from ..script import Command, commands, lines_of, tokens
from ..standing import block


class Document:
    """The text of an open file; `lines` are those of the tools, each byte a character."""

    def __init__(self, uri: str, text: str) -> None:
        self.uri, self.text = uri, text
        self.lines = lines_of(text.encode("utf-8", "replace"))
        self.blocks = {at: one for one in commands(self.lines) if one.is_block for at in block(one, self.lines)}

    def line(self, at: int) -> str:
        return self.lines[at] if at < len(self.lines) else ""

    def unit(self, at: int, byte: int) -> int:
        """The editor's column of a byte, counted from 1."""
        before = self.line(at)[: max(byte - 1, 0)].encode("latin-1").decode("utf-8", "ignore")
        return len(before.encode("utf-16-le")) // 2

    def byte(self, at: int, unit: int) -> int:
        """The byte, from 1, at the editor's column."""
        shown = self.line(at).encode("latin-1").decode("utf-8", "ignore")
        before = shown.encode("utf-16-le")[: 2 * unit].decode("utf-16-le", "ignore")
        return len(before.encode("utf-8")) + 1

    def range(self, at: int, first: int, last: int) -> Dict:
        """From a byte of a line, from 1, to behind another one."""
        return {
            "start": {"line": at, "character": self.unit(at, first)},
            "end": {"line": at, "character": self.unit(at, last)},
        }

    def whole_line(self, at: int) -> Dict:
        return self.range(at, 1, len(self.line(at)) + 1)

    def whole(self) -> Dict:
        """The range of all text, with whatever stands behind the last line feed."""
        return {"start": {"line": 0, "character": 0}, "end": {"line": self.text.count("\n") + 1, "character": 0}}

    def token_at(self, at: int, byte: int) -> Optional[List]:
        """The column and the text of the token at a byte, or right before it."""
        found = [(column, word) for column, word in tokens(self.line(at)) if column <= byte <= column + len(word)]
        return list(found[-1]) if found else None

    def block_of(self, at: int) -> Optional[Command]:
        """The command in whose block a line stands."""
        return self.blocks.get(at)
