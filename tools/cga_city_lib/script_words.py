"""The words of a script's lines, kept from one save to the next: most lines of a save are those of the last one."""
from typing import Any, Dict, List

from .script import commands, words_of


class ScriptWords:
    """Knows the words of the lines that it met last."""

    def __init__(self) -> None:
        self.known: Dict[str, List[str]] = {}

    def commands(self, lines: List[str]) -> List[Any]:
        """The commands of a script, whose lines are the ones that are known from then on."""
        was, self.known = self.known, {}

        def kept(line: str) -> List[str]:
            words = was.get(line) or words_of(line)
            self.known[line] = words
            return words

        return commands(lines, kept)
