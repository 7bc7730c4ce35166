"""A program that is asked as it goes: lines to it and from it, without a wait that has no end."""
import queue
import subprocess
import threading
from collections import deque
from contextlib import contextmanager
from typing import Deque, Iterator, List, Optional

from .sources import frugal

FAREWELL = 5.0  # seconds that a program has to end by itself
PIECE = 1 << 16

Process = "subprocess.Popen[bytes]"


class Ended(Exception):
    """No more replies come: the program died or fell silent, or was ended."""


@contextmanager
def while_written(process: Process, data: bytes) -> Iterator[None]:
    """Writes to a program, as a thread of its own, as long as its replies are read."""
    writer = threading.Thread(target=write_to, args=(process, data))
    writer.start()
    yield
    writer.join()


def write_to(process: Process, data: bytes) -> None:
    try:
        process.stdin.write(data)  # type: ignore[union-attr]
        process.stdin.flush()  # type: ignore[union-attr]
    except OSError:
        pass  # it has ended, which its replies or its status show


class Pipe:
    """A program that writes nothing for `patience` seconds, while a line is waited for, is ended, and Ended is raised."""

    def __init__(self, words: List[str], patience: float) -> None:
        self.patience = patience
        self._lines: Deque[str] = deque()
        self._rest = b""
        self._read: "queue.Queue[bytes]" = queue.Queue()
        self._written: "queue.Queue[bytes]" = queue.Queue()
        self._process: Optional[Process] = subprocess.Popen(
            words, env=frugal(), stdin=subprocess.PIPE, stdout=subprocess.PIPE
        )
        for work in (self._take, self._feed):
            threading.Thread(target=work, args=(self._process,), daemon=True).start()

    def _take(self, process: Process) -> None:
        """Takes in what the program writes, as a thread of its own; an empty piece says that it has ended."""
        with process.stdout as stream:  # type: ignore[union-attr]
            piece = b" "
            while piece:
                piece = stream.read1(PIECE)  # type: ignore[attr-defined]
                self._read.put(piece)

    def _feed(self, process: Process) -> None:
        """Writes what the program is asked, as a thread of its own, since a program that doesn't read holds a writer up."""
        try:
            with process.stdin as stream:  # type: ignore[union-attr]
                for piece in iter(self._written.get, b""):
                    stream.write(piece)
                    stream.flush()
        except OSError:
            pass  # it has ended, which is read

    def write(self, data: bytes) -> None:
        if self._process is None:
            raise Ended("the session has ended")
        if data:
            self._written.put(data)

    def line(self) -> str:
        while not self._lines:
            self._more()
        return self._lines.popleft()

    def lines(self, number: int) -> List[str]:
        return [self.line() for _ in range(number)]

    def _more(self) -> None:
        if self._process is None:
            raise Ended("the session has ended")
        try:
            piece = self._read.get(timeout=self.patience)
        except queue.Empty:
            raise self.end(f"the program has said nothing for {self.patience:g} seconds, and was ended") from None
        if not piece:
            raise self.end(f"the program ended with status {self._process.wait()}")
        *lines, self._rest = (self._rest + piece).split(b"\n")
        self._lines.extend(line.decode("latin-1") for line in lines)

    def end(self, why: str) -> Ended:
        """Ends the program at once; the exception that says why."""
        process, self._process = self._process, None
        if process is not None:
            process.kill()
            process.wait()
            self._written.put(b"")
        return Ended(why)

    def close(self) -> None:
        """Lets the program end by itself, or ends it where it doesn't."""
        process = self._process
        if process is not None:
            self._written.put(b"")
            try:
                process.wait(FAREWELL)
            except subprocess.TimeoutExpired:
                pass
            self.end("")
