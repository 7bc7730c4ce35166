"""How far work is, on standard error where that is a terminal, once it has taken more than two seconds."""
import sys
import time
from typing import Iterable, Iterator, Optional, TypeVar

Thing = TypeVar("Thing")


class Progress:
    def __init__(self, what: str, of: Optional[int] = None):
        self.what, self.of = what, of
        self.next = time.monotonic() + 2 if sys.stderr.isatty() else float("inf")
        self.is_shown = False

    def at(self, number: int) -> None:
        now = time.monotonic()
        if now < self.next:
            return
        self.next, self.is_shown = now + 0.5, True
        of = f" of {self.of:,}" if self.of else ""
        print(f"\r\033[K{self.what}: {number:,}{of}", end="", file=sys.stderr, flush=True)

    def end(self) -> None:
        if self.is_shown:
            print("\r\033[K", end="", file=sys.stderr, flush=True)


def counted(things: Iterable[Thing], what: str, number: Optional[int] = None) -> Iterator[Thing]:
    """The same things, with how many of them were taken; of how many isn't told where the number is 0."""
    if not sys.stderr.isatty():
        yield from things
        return
    progress = Progress(what, len(things) if number is None else number)
    for number, thing in enumerate(things):
        progress.at(number)
        yield thing
    progress.end()
