"""The rules of a script, which its lots are to be taken from elsewhere: its head, its symbols, and rules put to them."""
from pathlib import Path
from typing import Any, List, Tuple, Union

from .call import Refused
from .script import LONGEST, NO_BLOCK, commands, is_open, is_version, lines_of, rule_of, without_block, words_of
from .strangers_text import told

KEPT = "rules put drop attr priority order asset dress undress".split()
LEFT_OUT = "lot unlot quiet print faults grammar stats bill trace judge dump model".split()
MOST_RULES = 512
HIGHEST = 999_999


class Rules:
    """The lines that are kept, the place of the block's end among them, and each symbol's parameters by its least rule."""

    def __init__(self, path: Union[str, Path]):
        with open(path, "rb") as file:
            lines = lines_of(file.read())
        self.path, self.lines, self.end, self.is_dressed = path, [], None, False
        self.ids, self.heads, self.asks = set(), {}, False
        found = commands(["version 2"] + lines)[1:]
        for command in found[bool(found and is_version(found[0].words)) :]:
            self.take(command, lines)
        if self.end is None:
            raise Refused(f"{path}: no block from `rules` to `end` is there")
        self.symbols = {
            symbol: words for _, symbol, words in sorted((number, *head) for number, head in self.heads.items())[::-1]
        }

    def refused(self, command: Any, why: str) -> Refused:
        return Refused(f"{self.path}:{command.first}: {why}")

    def take(self, command: Any, lines: List[str]) -> None:
        head = command.words[0] if command.words else ""
        if head in LEFT_OUT:
            return
        if head not in KEPT:
            raise self.refused(
                command,
                "write the rules as a block from `rules` to `end`"
                if head == "city"
                else NO_BLOCK
                if without_block(lines) is not None
                else "a map can't stand among rules for parcels: the map's file is named first, then that of the rules"
                if head[:1] in ("{", "[")
                else f"`{told(head)}` can't stand among rules for parcels; tools/lint says what else is wrong",
            )
        if is_open(command, ["version 2"] + lines):
            raise self.refused(command, "no line `end` ends this block")
        if head == "rules" and self.end is not None:
            raise self.refused(command, "a second block `rules` would replace the first: leave one of them")
        some = lines[command.first - 1 : command.last]
        self.lines += some
        self.is_dressed |= head == "dress"
        if head == "rules":
            self.end = len(self.lines) - 1
        if head in ("rules", "put"):
            for line in some:
                self.take_rule(line)

    def take_rule(self, line: str) -> None:
        rule, words = rule_of(line), words_of(line)
        if rule is None or len(line) > LONGEST:
            return
        number, symbol = rule
        at = words.index(":") + 2
        inside = words[at + 1 : words.index(")", at)] if words[at : at + 1] == ["("] and ")" in words else []
        self.ids.add(number)
        self.heads[number] = symbol, tuple(inside[::2])
        self.asks |= any(words[k : k + 3] == ["Scope", ".", "occ"] for k in range(len(words)))

    def first_symbol(self) -> str:
        """The symbol of the rule that stands first."""
        return next((symbol for symbol, _ in self.heads.values()), "lot")

    def with_rules(self, rules: List[Tuple[str, str]]) -> List[str]:
        """The lines with further rules, each a symbol and what stands behind it, of a priority that goes first."""
        if not rules:
            return self.lines
        if len(self.ids) + len(rules) > MOST_RULES:
            raise Refused(
                f"{len(rules)} kinds of parcels, each of other numbers, symbol or side of the street, need a rule each, and {self.path} "
                f"has {len(self.ids)}, where a script has at most {MOST_RULES}: round the numbers, or cut the map into parts"
            )
        free = (number for number in range(HIGHEST, 0, -1) if number not in self.ids)
        added = [f"{number}: {symbol} -> {body}" for number, (symbol, body) in zip(free, rules)]
        return self.lines[: self.end] + ["PRIORITY 0:", *added] + self.lines[self.end :]
