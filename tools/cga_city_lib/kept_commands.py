"""What a kept region replies to lines, as one cga_live would: edits, and behind each what it changed; reports."""
from typing import Any, Iterator, List, Optional, Union

from .call import Refused
from .journal import Journal
from .kept_changes import Changes
from .kept_region import KeptRegion
from .kept_reports import Reports
from .kept_sources import Edit
from .live_job import LiveJob, first_step
from .lot_lines import usual
from .replies import is_refused
from .script import LONGEST, is_blank, opens_block, words_of
from .script import END as END_LINE
from .strangers_text import told as told_text

HEAD_EDITS = "rules put drop attr priority order".split()
DRESSING = "asset dress undress".split()
NOT_KEPT = {"city", "judge", "trace"}  # of a whole town
OK = "# ok"
NO_SYMBOL = "# refused NoSymbol "
Reply = Union[str, bytes]  # a line, or a text


class Commands:
    """`rules` is a process without lots, which says first whether a line can be taken."""

    def __init__(self, region: KeptRegion, words: List[str]) -> None:
        self.region, self.is_quiet = region, False
        self.journal: Optional[Journal] = None
        sources = region.sources
        self.rules = LiveJob(words, sources.head, region.dressed)
        self.rules.send(first_step(region.dressed, sources.head, {}, set()))
        self.rules.take()
        self.reports = Reports(region, self.rules)

    def replay(self, journal: Journal) -> None:
        """Leads the sources to what was accepted; from then on what is accepted is written down."""
        for lines in journal.edits():
            words = words_of(lines[0])
            if self.edit(words[0], words, lines)[0] != OK:
                raise Refused(f"{journal.path}: `{told_text(lines[0])}` is refused; take the line out")
        self.journal = journal

    def end(self) -> None:
        self.rules.close()

    # ---- lines

    def replies(self, lines: Iterator[str]) -> Iterator[bytes]:
        """What is replied to all commands, as they come; an empty text says that a command was replied to."""
        for line in lines:
            if not is_blank(line):
                words = words_of(line) if len(line) <= LONGEST else []
                block = [line, *until_end(lines)] if opens_block(words, True) else [line]
                yield from map(as_bytes, self.replied(words, block))
            yield b""

    def replied(self, words: List[str], lines: List[str]) -> Iterator[Reply]:
        head = words[0] if words else ""
        if len(lines) > 1 and not END_LINE.fullmatch(lines[-1]):
            yield "# refused OpenBlock"
        elif words == ["quiet"]:
            self.is_quiet = True
        elif head in NOT_KEPT and (len(lines) > 1 or len(words) == 1):
            yield f"# refused NotKept {head}"
        elif self.reports.has(words):
            yield from self.reports.of(words)
        else:
            yield from self.edited(head, words, lines)

    # ---- edits

    def edited(self, head: str, words: List[str], lines: List[str]) -> Iterator[Reply]:
        """The reply to an edit, and what it changed."""
        reply, changes = self.edit(head, words, lines)
        if reply == OK and self.journal:
            self.journal.write(lines)
        if reply != OK or not self.is_quiet:
            yield reply
        yield changes.text()

    def edit(self, head: str, words: List[str], lines: List[str]) -> Any:
        if words in (["undo"], ["redo"]):
            return self.turned(head)
        if head == "unlot" and len(words) == 2 and words[1] in self.region.sources.lots:
            return self.done(Edit({words[1]: None}))
        if head == "lot" and is_usual(lines[0]):
            edit = self.region.sources.lot(lines[0])
            assert edit, lines[0]
            reply, changes = self.done(edit)
            if reply == OK:  # else the process without lots says what a town would
                return reply, changes
            return (
                next((told for told in self.rules.ask([*lines, f"unlot {words[1]}"])[:1] if told != OK), reply),
                changes,
            )
        behind = {"lot": [f"unlot {name}" for name in words[1:2]], **dict.fromkeys(HEAD_EDITS, ["dump"])}
        reply, *more = self.rules.ask([*lines, *behind.get(head, [])])
        if reply != OK:
            return reply, Changes()
        if head == "lot":
            edit = self.region.sources.lot(lines[0])
            assert edit, lines[0]
            return self.done(edit)
        return self.dressed(lines) if head in DRESSING else self.with_head(lines, more)

    def done(self, edit: Edit) -> Any:
        back = self.region.sources.back(edit)
        reply, changes = self.region.edit(edit)
        if reply == OK:
            self.region.sources.did(back)
        return reply, changes

    def with_head(self, lines: List[str], dump: List[str]) -> Any:
        """An edit of the rules, which all jobs take or none."""
        former, new = self.region.sources.head, dump[2:-1]
        if is_refused(dump):
            self.set_rules(former)
            return dump[0], Changes()
        reply, changes = self.done(Edit({}, new, tuple(lines)))
        if reply.startswith(NO_SYMBOL):
            reply = self.first_without_rules(reply)
        self.set_rules(new if reply == OK else former)
        return reply, changes

    def first_without_rules(self, reply: str) -> str:
        """The reply of one run: of the lots whose symbols the new rules don't have, it tells the first. A job has its lots in an
        order of its own."""
        sources = self.region.sources
        symbols = dict.fromkeys(sources.lots[name].line.rsplit(" ", 1)[1] for name in sources.in_order())
        replies = (self.rules.ask([f"lot x 0 0 0 1 1 {symbol}", "unlot x"])[0] for symbol in symbols)
        return next((told for told in replies if told.startswith(NO_SYMBOL)), reply)

    def set_rules(self, head: List[str]) -> None:
        """The process without lots has these rules, also where another one is begun."""
        self.rules.send(self.rules.to(["city", *head, "end"], {}, set())._replace(head=head))
        self.rules.take()

    def dressed(self, lines: List[str]) -> Any:
        """All jobs dress a symbol, which changes no instance."""
        for job in self.region.parts.jobs:
            if job.live:
                job.live.ask(lines)
        self.region.dressed += lines
        return OK, Changes()

    def turned(self, word: str) -> Any:
        """Back to what was there before the last edit, or forward again."""
        sources = self.region.sources
        edits: Any = sources.past if word == "undo" else sources.future
        if not edits:
            return f"# refused No{word.capitalize()}", Changes()
        edit = edits.pop()
        back = sources.back(edit)
        reply, changes = self.region.edit(edit)
        others: Any = sources.future if word == "undo" else sources.past
        (others if reply == OK else edits).append(back if reply == OK else edit)
        if reply == OK and edit.head is not None:
            self.set_rules(edit.head)
        return reply, changes


def is_usual(line: str) -> bool:
    """Whether jobs are asked at once for a lot that is spelt so."""
    lot = usual(line)
    return lot is not None and lot.group(8) is None


def as_bytes(reply: Reply) -> bytes:
    return reply if isinstance(reply, bytes) else reply.encode("latin-1") + b"\n"


def until_end(lines: Iterator[str]) -> Iterator[str]:
    for line in lines:
        yield line
        if len(line) <= LONGEST and END_LINE.fullmatch(line):
            return
