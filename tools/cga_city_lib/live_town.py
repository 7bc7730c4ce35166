"""The town of a script that is edited, kept by a running program: a save is sent as edits where edits say it."""
from collections import Counter

from .edits import city_of, edits
from .live import Live
from .pipe import Ended
from .plain_script import Told, sources_of
from .replies import counts_of, is_refused
from .script import is_blank, is_open, is_version, words_of
from .session import OPEN

UNSENT = "quiet print stats faults grammar".split()  # they edit nothing and are never refused, and some take long
UNSENT_2 = [*UNSENT, "model"]  # in version 2
FEW = 4  # edits of a save, up to which each is asked how many shapes were expanded
MANY_LOTS = 100  # that may come by edits, whatever their part of the town
BEYOND = ("NoSymbol", "OverBudget", "TooManyLots")  # causes that may be another line's in a run from nothing


class LiveTown:
    """Shows what scripts come to. `held` is the sources that the program has, where they are known, and `changes` what went and
    came since the last publication, by how often each instance is drawn."""

    def __init__(self, program, shown):
        self.program, self.shown = program, shown
        self.live, self.held, self.lines, self.answers = None, None, None, []
        self.worked = self.stats = None
        self.is_fed = False  # whether the program got the script's own lines, so that `undo` means what it means there
        self.changes, self.is_another = Counter(), False

    def stop(self):
        if self.live:
            self.live.stop()

    def close(self):
        if self.live:
            self.live.close()
        self.live, self.held, self.lines, self.answers = None, None, None, []

    def collect(self, gone, come):
        self.changes.subtract(gone)
        self.changes.update(come)

    def publish(self, **head):
        """Tells the pages all that changed in one step, with values of the head."""
        if self.is_another:
            self.changes.subtract(self.shown.drawn.counts())
        self.shown.put(self.changes, **head)
        self.changes, self.is_another = Counter(), False

    def show(self, lines, found):
        """The reply to each command of a script, and the shapes that came to nothing."""
        left_open = found[-1:] if found and is_open(found[-1], lines) else []
        whole = found[: len(found) - len(left_open)]
        closed = lines[: left_open[0].first] if left_open else lines
        answers = self.kept(closed, whole)
        try:
            if answers is None:
                answers = self.anew(closed, whole, bool(left_open))
            faults = self.live.ask(["faults"], 1)[0][1:] if self.live and self.stats.get("faults") else []
        except Ended:
            self.close()
            raise
        return answers + [OPEN for _ in left_open], faults

    def kept(self, lines, found):
        """The replies where the program that is running can be led there; it may have ended by itself meanwhile."""
        try:
            answers = self.grown(lines, found)
            return self.edited(lines, found) if answers is None else answers
        except Ended:
            self.close()
            return None

    def turn(self, values):
        """Sets attributes beside the script's values; what is said of those that are refused, by their names."""
        self.lines, refused = None, {}
        lines = [[f"attr {name} = {value}"] for name, value in values.items()] if self.live else []
        self.held = self.held and self.held.copy()
        for (name, value), reply in zip(values.items(), self.tell_all(lines, len(lines) <= FEW)):
            if reply[0] != "# ok":
                refused[name] = f"attr {name} = {value}: {reply[0][2:]}"
            elif self.held:
                self.held.attributes[name] = Told(value, None, None)
        return refused

    # ---- ways to come to the script's town; each has the replies to its commands, or nothing where it doesn't lead there

    def grown(self, lines, found):
        """Where the script only grew, what is new is sent."""
        if not self.live or self.lines is None or lines[: len(self.lines)] != self.lines:
            return None
        behind = found[len(self.answers) :]
        if not self.is_fed and any(command.words[:1] in (["undo"], ["redo"]) for command in behind):
            return None
        new, self.stats = self.feed(self.live, lines, behind)
        self.worked = self.stats.get("expanded", 0) if len(new) == 1 else None
        return self.keep(lines, found, self.answers + new)

    def edited(self, lines, found):
        """Where edits lead from the sources that are there to those of the script, these are sent."""
        new = sources_of(lines, found)
        planned = edits(self.held, new, lines, found) if self.live and self.held and new else None
        if planned is None or self.is_much(new):
            return None
        answers, self.held, self.is_fed = [["# ok"]] * len(found), self.held.copy(), False
        for edit, reply in zip(planned, self.tell_all([edit.lines for edit in planned], len(planned) <= FEW)):
            if reply[0] == "# ok":
                edit.change(self.held)
            elif reply[0].split()[2] in BEYOND:
                self.held = None
                return None
            else:
                answers[edit.command] = in_block(reply, edit)
        if all(answer == ["# ok"] for answer in answers):
            return self.keep(lines, found, answers, new)
        self.lines = None
        return answers

    def is_much(self, new):
        """Whether so many lots come, to a town that has some, that a run from nothing is quicker."""
        come = len(new.lots.keys() - self.held.lots.keys())
        return come > MANY_LOTS and 4 * come > len(new.lots)

    def anew(self, lines, found, is_open):
        """All is sent to another program; a block that is refused or left open leaves the town that is there."""
        live, drawn, answers, stats = self.at_once(lines, found) or self.line_by_line(lines, found)
        is_lost = any(command.is_block and is_refused(answer) for command, answer in zip(found, answers))
        if self.shown.drawn and (is_open or is_lost):
            live.close()
            self.lines = None
            return answers
        self.close()
        live.changed = self.collect
        self.live, self.stats, self.worked = live, stats, None
        self.changes, self.is_another = drawn, True
        return self.keep(lines, found, answers)

    def other(self):
        """Another program, and what it will tell that is drawn."""
        drawn = Counter()

        def collect(gone, come):
            drawn.subtract(gone)
            drawn.update(come)

        return Live(self.program, collect), drawn

    def line_by_line(self, lines, found):
        live, drawn = self.other()
        self.is_fed = True
        return (live, drawn, *self.feed(live, lines, found))

    def at_once(self, lines, found):
        """Sends a plain script's sources as one block, which takes less than its lots one by one, or gives nothing where that
        isn't accepted."""
        sources = sources_of(lines, found)
        if not sources or not sources.is_second:
            return None
        sent, number = city_of(sources, lines, found[sources.block])
        live, drawn = self.other()
        *replies, stats = live.ask(["version 2", *sent, "stats"], 2 + number)
        if any(reply != ["# ok"] for reply in replies):
            live.close()
            return None
        self.is_fed = False
        return live, drawn, [["# ok"]] * len(found), counts_of(stats)

    # ----

    def keep(self, lines, found, answers, sources=None):
        """What is known of the program where it has come to a script's sources."""
        self.lines, self.answers = list(lines), answers
        self.held = None if any(map(is_refused, answers)) else sources or sources_of(lines, found)
        return answers

    def feed(self, live, lines, found):
        """Sends commands; reports that edit nothing aren't sent, and count as accepted."""
        first = next((line for line in lines if not is_blank(line)), "")
        unsent = UNSENT_2 if is_version(words_of(first)) else UNSENT
        sent = [command for command in found if not (len(command.words) == 1 and command.words[0] in unsent)]
        got = iter(
            live.ask(
                [line for command in sent for line in lines[command.first : command.last + 1]] + ["stats"],
                len(sent) + 1,
            )
        )
        kept = {command.first: next(got) for command in sent}
        return [kept.get(command.first, ["# ok"]) for command in found], counts_of(next(got))

    def tell_all(self, edits, is_counted):
        """The reply to each of some edits, which are sent in one write. Where it is counted, how much was worked for them is
        added up; else only the last counts are asked for."""
        asked = [line for lines in edits for line in lines + ["stats"] * is_counted]
        got = self.live.ask(asked + ["stats"], (1 + is_counted) * len(edits) + 1) if self.live else []
        counts = [counts_of(reply) for reply in got[1:-1:2]] if is_counted else []
        replies = got[:-1:2] if is_counted else got[:-1]
        worked = [told.get("expanded", 0) for told, reply in zip(counts, replies) if reply[0] == "# ok"]
        self.stats, self.worked = counts_of(got[-1]) if got else self.stats, sum(worked) if is_counted else None
        return replies


def in_block(reply, edit):
    """A refusal of a rule that was put, as the block would have it: by the line and the place in the file."""
    head, _, place = reply[0].rpartition(" at ")
    if not edit.place or not head:
        return reply
    line, before = edit.place
    return [f"{head} at {line}:{max(1, int(place) - before)}"]
