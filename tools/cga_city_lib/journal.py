"""The edits that a kept region has accepted, in a file of its folder. An edit counts once its last line is whole there, so what a
process that is killed was writing doesn't."""
import os
from pathlib import Path
from typing import Iterator, List

from .call import Refused
from .files import naming
from .script import commands, is_open, lines_of, text_of

FILE = "edits"
MARK = "# edits of "


class Journal:
    """`digest` is that of the script that the edits begin with."""

    def __init__(self, folder: Path, digest: str) -> None:
        self.path, self.first = folder / FILE, MARK + digest
        self.file = -1

    def edits(self) -> Iterator[List[str]]:
        """The lines of each edit. What isn't whole is taken out of the file."""
        data = self.path.read_bytes() if self.path.exists() else b""
        if not data:
            return
        lines = ["version 2", *lines_of(data[: data.rfind(b"\n") + 1])]
        if lines[1:2] != [self.first]:
            raise Refused(
                f"{self.path} has edits of another script than region.cga: take it away, or cut the script that it is of again"
            )
        whole = [command for command in commands(lines)[1:] if not is_open(command, lines)]
        self.cut_off(text_of(lines[1 : whole[-1].last + 1 if whole else 2]))
        for command in whole:
            yield lines[command.first : command.last + 1]

    def cut_off(self, whole: bytes) -> None:
        with self.path.open("r+b") as file:
            file.truncate(len(whole))

    def write(self, lines: List[str]) -> None:
        """Writes an edit, in one write of the system."""
        if self.file < 0:
            is_new = not self.path.exists() or self.path.stat().st_size == 0
            self.file = os.open(self.path, os.O_WRONLY | os.O_APPEND | os.O_CREAT, 0o666)
            lines = [self.first, *lines] if is_new else lines
        data = text_of(lines)
        with naming(self.path):
            written = os.write(self.file, data)
        if written != len(data):
            raise Refused(f"{self.path}: the disk is full: make room, and call again; the edit isn't accepted")

    def close(self) -> None:
        if self.file >= 0:
            os.close(self.file)
