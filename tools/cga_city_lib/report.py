"""What is refused in a script, with its place and what to write, the shapes that came to nothing with their rules, and what
has no effect."""
import re
from collections import defaultdict

from .advice import Place, advice
from .budget import CAUSES as TOO_LARGE
from .budget import explained
from .causes import CAUSES, CODES, help_for
from .follows import Follows
from .notes import by_symbol, notes
from .replies import is_refused
from .retried import Retried
from .script import NO_BLOCK, rule_of, tokens
from .standing import block, standing
from .strangers_text import shown

REFUSED = re.compile(r"# refused (\w+) ?(.*)")
PLACE = re.compile(r"at (?:(\d+):)?(\d+)")
WIDEST = 300


def readable(text):
    """A script's text as letters; what a terminal would take for more than a letter is written as its code."""
    return shown(text.encode("latin-1").decode("utf-8", "replace"))


def place(lines, command, reply):
    """Where a script's line refuses a reply's command: its line and column, the cause, and the words that it tells."""
    cause, rest = REFUSED.fullmatch(reply[0]).groups()
    at, column, words = Report("", lines, [], []).place(command, cause, rest)
    return at, column, cause, words


def shortened(path):
    return path if len(path) < 60 else path[:24] + ".."


class Report:
    """A script's lines, and its commands with their replies; `ways` has for a shape that came to nothing the symbols above it.
    `ask` replies to other lines: by it all refused lines of a block are told, and not the first alone. `head` is the place of
    a line `rules` that the script itself doesn't have, where it has rules without a block."""

    def __init__(self, path, lines, commands, replies, ways=None, ask=None, head=None):
        self.path, self.lines, self.ways, self.head = path, lines, ways or {}, head
        self.answers = list(zip(commands, replies))
        self.retried = Retried(ask or (lambda _: []), place, lines, self.answers if ask else [])
        self.ask, self.cause_of = ask, Follows(lines, self.answers).cause_of
        self.look_again()
        self.too_large = self.first_too_large()
        self.refused = [
            (command, *REFUSED.fullmatch(reply[0]).groups()) for command, reply in self.answers if is_refused(reply)
        ]

    def first_too_large(self):
        """The first command by which the town would be too large; lots behind it follow from it."""
        found = [
            command for command, reply in self.answers if reply[0].split()[2:3] in ([cause] for cause in TOO_LARGE)
        ]
        for command in found[1:]:
            if command.words[:1] == ["lot"]:
                self.cause_of.setdefault(command.first, found[0].first)
        return found[0] if found else None

    def why_too_large(self, command, cause):
        told = cause in TOO_LARGE and command == self.too_large and self.ask
        text = explained(self.ask, self.lines, self.answers, command, cause) if told else ""
        if text:
            yield f"    {readable(text)}"

    def look_again(self):
        """Of the commands behind refused blocks counts what they are replied to once those are mended."""
        first = next(iter(self.retried.told), None)
        for number, (reply, (command, was)) in enumerate(zip(self.retried.final, self.answers)):
            if command.first in self.retried.told or not is_refused(was):
                continue
            if is_refused(reply) and reply != was:
                self.answers[number] = command, reply
                self.cause_of.pop(command.first, None)
            elif not is_refused(reply):
                self.cause_of.setdefault(command.first, first)

    def number(self, at):
        """The number of a line in the script itself."""
        return at + 1 - (self.head is not None and at > self.head)

    def place(self, command, cause, rest):
        """The line and the column that a refusal means, and the words that it tells; no column is 0."""
        told = PLACE.fullmatch(rest)
        if told:
            line, column = told.groups()
            if line or not command.is_block:
                return command.first + int(line or 0), int(column), []
            return command.first + int(column), 0, []
        words = rest.split()
        names = [word for word in words if not word.isdigit()]
        line = self.line_told(command, cause, words) if command.is_block else command.first
        columns = [column for column, word in tokens(self.lines[line]) if word in names]
        return line, columns[-1 if cause in ("UnknownSymbol", "NoSymbol") else 0] if columns else 0, words

    def line_told(self, command, cause, words):
        """The line of a block with the rule of that id, the lot of that name or symbol, or the attribute."""
        if not words:
            return command.first
        heads = {at: [word for _, word in tokens(self.lines[at])] for at in block(command, self.lines)}
        if words[0].isdigit():
            found = [at for at in heads if (rule_of(self.lines[at]) or [None])[0] == int(words[0])]
        elif cause == "NoSymbol":
            found = [at for at, head in heads.items() if head[:1] == ["lot"] and head[-1] == words[0]]
        else:
            found = [at for at, head in heads.items() if head[:2] in (["lot", words[0]], ["attr", words[0]])]
        is_second = cause in ("DoubleId", "DoubleAttribute")
        return (found[is_second:] or found or [command.first])[0]

    def refusal(self, command, cause, rest):
        """The lines that tell a refusal: its place and a sentence, the line, and a mark under the place."""
        line, column, words = self.place(command, cause, rest)
        yield from self.sentence(line, column, cause, words, line != command.first)

    def sentence(self, line, column, cause, words, is_inside):
        text = self.lines[line]
        told = [
            CAUSES.get(cause, cause).format(*words, "?", "?"),
            advice(cause, words, Place(text, column, is_inside)),
        ]
        if told[1] and cause in ("Unexpected", "BadByte"):
            told[0] = ""
        yield f"{self.path}:{self.number(line)}:{column or 1}: {cause}: {'; '.join(filter(None, told))}"
        yield "    " + readable(text)[:WIDEST]
        ahead = readable(text[: max(column - 1, 0)])
        if column and len(ahead) < WIDEST:
            yield "    " + re.sub(r"[^\t]", " ", ahead) + "^"

    def refusals(self):
        """All refusals but those that follow from another; how many follow is told with that one."""
        following = defaultdict(list)
        for first, cause in self.cause_of.items():
            following[cause].append(self.number(first))
        for command, cause, rest in self.refused:
            if command.first in self.cause_of:
                continue
            if command.first in self.retried.told:
                yield from self.block(self.retried.told[command.first])
            else:
                yield from self.refusal(command, cause, rest)
            yield from self.why_too_large(command, cause)
            follow = following[command.first]
            if follow[1:]:
                yield f"    {len(follow)} further refusals follow from it, from line {follow[0]} on"
            elif follow:
                yield f"    a further refusal follows from it, in line {follow[0]}"

    def block(self, told):
        """All refusals of a block."""
        for refusal in told:
            if refusal.line == self.head:
                yield f"{self.path}:{self.number(self.head)}:1: {NO_BLOCK}"
            else:
                yield from self.sentence(*refusal, refusal.cause != "OpenBlock")
            follow = self.retried.follow[refusal.line]
            if follow:
                yield f"    {follow} further line{'s' * (follow > 1)} of the block {'are' if follow > 1 else 'is'} refused for want of it"
        if self.retried.is_late:
            yield "    the block may have further refused lines behind this one: mend it, and ask again"

    def way(self, lot, path, symbol, rules):
        """The rules above a shape, from its lot on; each that may have made the next one."""
        steps = [*self.ways.get((lot, path), []), symbol]
        for made, (above, below) in enumerate(zip(steps, steps[1:])):
            numbers = [str(rule.number) for rule, _ in rules.get(above, []) if below in rule.names]
            if above != below or made == 0:
                yield f"{above} (rule {' or '.join(numbers) or '?'})"

    def faults(self, faults, rules):
        """The lines that tell, for each symbol and code, how many shapes came to nothing, one of them, its rules and what helps."""
        found = defaultdict(list)
        for fault in faults:
            _, _, lot, path, symbol, code = fault.split()
            found[symbol, code].append((lot, path))
        for (symbol, code), shapes in found.items():
            own, (lot, path) = rules.get(symbol, []), shapes[0]
            many = f"{len(shapes)} shapes of `{symbol}`, such as" if shapes[1:] else f"a shape of `{symbol}`,"
            first = self.number(own[0][1]) if own else 1
            yield f"{self.path}:{first}:1: {code}: {many} {shortened(path)} in lot {lot}, came to nothing: {CODES.get(code, code)}"
            for _, at in own:
                yield f"    line {self.number(at)}: {readable(self.lines[at].strip())}"
            if (lot, path) in self.ways:
                yield f"    on its way: {' > '.join([*self.way(lot, path, symbol, rules), symbol])}"
            yield f"    what helps: {help_for(code, [self.lines[at] for _, at in own])}"

    def lines_for(self, faults):
        """All that there is to tell, a sum at the end."""
        now = standing(self.lines, self.answers)
        yield from self.refusals()
        yield from self.faults(faults, by_symbol(now.rules))
        told = [] if self.refused else notes(now)
        for at, text in told:
            yield f"{self.path}:{self.number(at)}:1: note: {text}"
        further = sum(self.retried.follow.values())
        many = sum(map(len, self.retried.told.values())) - len(self.retried.told) + further + len(self.refused)
        follow = f" ({only} of them only follow)" if (only := len(self.cause_of) + further) else ""
        noted = f", {len(told)} note{'s' * (len(told) > 1)}" if told else ""
        yield f"{self.path}: {many} refused{follow}, {len(faults)} shapes came to nothing{noted}"
