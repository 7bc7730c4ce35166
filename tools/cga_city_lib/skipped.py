"""Features and rows that can't be taken: they are skipped and listed, or the first ends the tool."""
from collections import namedtuple
from typing import Any, Callable, List

from .call import Refused
from .strangers_text import told

Skip = namedtuple("Skip", "number text why")
MOST_SENTENCES = 40
STATUS = 3


def place_of(what: str, number: int, text: str) -> str:
    return f"{what} {number} ({told(text)})" if text else f"{what} {number}"


class Skips:
    """`what` is `feature` or `line`: the word in front of a number."""

    def __init__(self, what: str, is_strict: bool):
        self.what, self.is_strict, self.found = what, is_strict, []  # type: ignore[var-annotated]

    def leave(self, number: int, text: str, why: str) -> None:
        if self.is_strict:
            raise Refused(f"{place_of(self.what, number, text)}: {why}")
        self.found.append(Skip(number, text, why))

    def tried(self, number: int, text: str, make: Callable[[], Any]) -> Any:
        """What `make` gives, or nothing where it refuses."""
        try:
            return make()
        except Refused as fault:
            self.leave(number, text, str(fault))
            return None

    def check(self, taken: List[Any]) -> None:
        """Ends the tool where nothing at all can be taken."""
        if taken or not self.found:
            return
        first = self.sentence(sorted(self.found)[0])
        raise Refused(first if len(self.found) == 1 else f"none of {len(self.found):,} can be taken; {first}")

    def sentence(self, skip: Skip) -> str:
        return f"{place_of(self.what, skip.number, skip.text)}: {skip.why}"

    def sentences(self) -> List[str]:
        """Each one that is skipped with its reason, and how many they are."""
        if not self.found:
            return []
        rows = sorted(self.found)
        more = len(rows) - MOST_SENTENCES
        rest = [f"and {more:,} more, which --list LIST.csv has"] if more > 0 else []
        many = f"{len(rows):,} {self.what}{'s' * (len(rows) > 1)} skipped; --strict refuses the map instead"
        return [f"skipped: {self.sentence(row)}" for row in rows[:MOST_SENTENCES]] + rest + [many]
