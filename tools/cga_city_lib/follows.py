"""Which refusals only follow from an earlier one: a lot whose symbol stands in a refused block, and the like."""
import re
from typing import Any, List, Optional, Sequence, Tuple

from .replies import is_refused
from .script import EDITS, rule_of
from .standing import block

Answered = Tuple[Any, List[str]]  # a command with its reply
NEEDED = {
    "NoSymbol": "symbol",
    "NoRule": "rule",
    "NoAttribute": "attribute",
    "NoLot": "lot",
    "NoAsset": "asset",
    "NoDress": "dress",
    "UnknownSymbol": "symbol",
    "UnknownName": "attribute",
}
IN_RULES = ("UnknownSymbol", "UnknownName")
OPENS = re.compile(r"\W*(rules|city|asset|judge)\b", re.IGNORECASE | re.ASCII)


def said_by(command: Any, lines: List[str]) -> List[Tuple[str, str]]:
    """What a command's lines would have declared, each as a kind and a name."""
    found = []
    for at in [command.first, *(block(command, lines) if command.is_block else [])]:
        words, rule = lines[at].split("#")[0].split(), rule_of(lines[at])
        if rule:
            found += [("rule", str(rule[0])), ("symbol", rule[1])]
        elif words[1:] and words[0] in ("lot", "attr", "asset", "dress"):
            found.append(("attribute" if words[0] == "attr" else words[0], words[1].partition("=")[0]))
    return found


def is_end(command: Any) -> bool:
    return command.words == ["end"]


class Follows:
    """Goes through a script's commands and their replies. `cause_of` has for each refused command that follows the one that it
    follows, both by the place of their first line."""

    def __init__(self, lines: List[str], answers: Sequence[Answered]):
        self.lines, self.cause_of, self.missing = lines, {}, {}
        self.first = None  # the first refused edit, as long as no edit was accepted
        self.is_new = True
        self.open = None  # the refused line that would have opened a block
        for number, (command, reply) in enumerate(answers):
            if is_refused(reply):
                self.refusal(command, reply[0].split()[2:], answers[number:])
            elif reply[0] == "# ok":
                self.accepted(command)

    def accepted(self, command: Any) -> None:
        self.is_new = self.is_new and command.words[0] not in EDITS
        if command.words[:1] in (["rules"], ["city"]):
            self.missing.clear()
        for key in said_by(command, self.lines):
            self.missing.pop(key, None)

    def refusal(self, command: Any, words: List[str], rest: Sequence[Answered]) -> None:
        cause = self.cause(command, words)
        if cause is None:
            cause = command.first
            self.first = cause if self.first is None else self.first
            if self.opens(command, rest):
                self.open = cause
        else:
            self.cause_of[command.first] = cause
        for key in said_by(command, self.lines):
            self.missing.setdefault(key, cause)
        if is_end(command):
            self.open = None

    def cause(self, command: Any, words: List[str]) -> Optional[int]:
        """The earlier command that this one follows, if it does; the words begin with the cause's name."""
        if self.open is not None:
            return self.open
        if words[0] == "NoUndo" and self.is_new:
            return self.first
        is_own = command.words[:1] != ["put"] if words[0] in IN_RULES else command.is_block
        return None if is_own or words[0] not in NEEDED else self.missing.get((NEEDED[words[0]], words[-1]))

    def opens(self, command: Any, rest: Sequence[Answered]) -> bool:
        """Whether the line was to open a block, whose lines are refused one by one up to an `end`."""
        if command.is_block or not OPENS.match(self.lines[command.first]):
            return False
        for behind, reply in rest[1:]:
            if is_end(behind) or behind.is_block:
                return is_end(behind) and is_refused(reply)
        return False
