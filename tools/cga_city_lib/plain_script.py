"""The sources that a plain script comes to: attributes, rules by their numbers, and lots in order.

A script is plain where it has one block of rules, lots with a name each, attributes behind the block, and reports. Of
any other script nothing is known here.
"""
import re
from collections import namedtuple

from .script import is_open, rule_of, words_of

REPORTS = "quiet print model stats faults grammar bill trace".split()
ASSETS = "asset dress undress".split()
WHOLE = re.compile(r"0*(\d{1,5})(\.0+)?")

Rule = namedtuple("Rule", "priority symbol text at")  # at: its place in the lines
Told = namedtuple("Told", "text command at")  # words that say a lot or an attribute's value, their command and line


def same(one, other):
    """Whether two rules are one, wherever they stand."""
    return one is not None and other is not None and one[:3] == other[:3]


class Sources:
    """`block` is the place of the block's command; what it says itself is kept apart from what lines behind it say. `assets` has
    the lines by which symbols are dressed, which edit no town."""

    def __init__(self):
        self.is_second, self.block, self.head, self.order, self.assets = False, None, "", "", ()
        self.rules, self.attributes, self.lots = {}, {}, {}
        self.block_attributes, self.block_lots = {}, {}

    def copy(self):
        other = Sources()
        other.__dict__.update(
            {name: dict(value) if isinstance(value, dict) else value for name, value in self.__dict__.items()}
        )
        return other

    def values(self):
        return {name: told.text for name, told in self.attributes.items()}

    def take_block(self, lines, place, command):
        """Whether the lines of a block are all known here."""
        self.block, self.head, priority = place, command.words[0], 1
        for at in range(command.first + 1, command.last):
            words = words_of(lines[at])
            rule = rule_of(lines[at])
            if not words:
                continue
            if words[0] == "PRIORITY" and len(words) == 3 and WHOLE.fullmatch(words[1]):
                priority = int(WHOLE.fullmatch(words[1]).group(1))
            elif rule and rule[0] not in self.rules:
                self.rules[rule[0]] = Rule(priority, rule[1], " ".join(words), at)
            elif self.head == "city" and words[0] == "order":
                self.order = " ".join(words)
            elif self.head == "city" and self.takes(words, self.lots, "lot", 8, place, at):
                pass
            elif not self.takes(words, self.attributes, "attr", 4, place, at):
                return False
        self.block_attributes, self.block_lots = dict(self.attributes), dict(self.lots)
        return True

    def takes(self, words, known, head, least, place, at):
        """Whether the words begin with that head and say a lot or an attribute that wasn't said yet."""
        if words[0] != head or len(words) < least or words[1] in known:
            return False
        known[words[1]] = Told(" ".join(words[3:] if head == "attr" else words), place, at)
        return True

    def takes_command(self, lines, place, command):
        head = command.words[0] if command.words else ""
        if place == 0 and head == "version":
            self.is_second = True
            return True
        if len(command.words) == 1 and head in REPORTS:
            return True
        if self.is_second and head in ASSETS and not is_open(command, lines):
            self.assets += tuple(lines[command.first : command.last + 1])
            return True
        if self.block is None:
            return (
                command.words in (["rules"], ["city"])
                and not is_open(command, lines)
                and self.take_block(lines, place, command)
            )
        if head == "attr" and len(command.words) > 3 and command.words[1] in self.attributes:
            self.attributes[command.words[1]] = Told(" ".join(command.words[3:]), place, command.first)
            return True
        return head == "lot" and self.takes(command.words, self.lots, "lot", 8, place, command.first)


def sources_of(lines, commands):
    """The sources of a plain script, or None."""
    found = Sources()
    is_plain = all(found.takes_command(lines, place, command) for place, command in enumerate(commands))
    return found if is_plain and found.block is not None else None
