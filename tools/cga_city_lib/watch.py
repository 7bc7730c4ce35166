"""A script's file, whose town is shown after each save, and after each turn of a slider."""
import os
import threading
import time
from itertools import chain

from . import about, kept_views, own_meshes, panel_words, variants
from .call import Refused
from .live import asking
from .pipe import Ended
from .replies import is_refused
from .report import Report
from .saved_meshes import SavedMeshes
from .script import lines_of
from .script_words import ScriptWords

KEPT = (kept_views, panel_words, variants)  # what a script's comments keep for its page
GONE = "the file is gone; the town is that of its last save"
EMPTY = "the file is empty, so there is no town"
EACH = 0.01  # seconds between two looks at the file, and for which it has to stay as it is
AWAY = 0.5  # seconds for which an editor that saves may take the file away


class Watch:
    """Shows what the script comes to after each save, and after each turn of a slider."""

    def __init__(self, path, town, shown, meshes=()):
        self.path, self.town, self.shown, self.meshes = path, town, shown, SavedMeshes(path, meshes)
        self.seen, self.data, self.saves, self.wanted, self.woken = None, None, 0, {}, threading.Event()
        self.values, self.turns = {}, 0  # of the sliders beside the script's, and how often they were set
        self.away = None  # since when the file has been away
        self.took = 0  # thousandths of a second for the last change
        self.words, self.lines = ScriptWords(), []

    def turn(self, values):
        self.wanted = {**self.wanted, **values}
        self.woken.set()

    def run(self):
        while True:
            data = self.read()
            if data is not None and data != self.data:
                self.data, self.wanted, self.values = data, {}, {}
                self.tell(self.show, lines_of(data))
            elif self.data is not None and self.meshes.is_changed():
                self.tell(self.show, lines_of(self.data))
            elif self.wanted and self.saves:
                values, self.wanted = self.wanted, {}
                self.tell(self.turned, values)
            self.woken.wait(EACH)
            self.woken.clear()

    def read(self):
        """The bytes of the file where it isn't as it was seen last; a file that an editor takes away is waited for."""
        try:
            seen = self.look()
            if seen == self.seen:
                return None
            while True:  # whoever writes may be in the middle of it
                with open(self.path, "rb") as file:
                    data = file.read()
                time.sleep(EACH)
                seen, was = self.look(), seen
                if seen == was:
                    self.seen, self.away = seen, None
                    return data
        except OSError as fault:
            self.is_away(fault)
            return None

    def is_away(self, fault):
        """Says that the file isn't there, once it has been away for longer than a save takes."""
        self.away = self.away or time.monotonic()
        if not self.saves:
            self.shown.put(said=f"{self.path}: {fault.strerror}")
        elif self.seen is not None and time.monotonic() - self.away > AWAY:
            self.seen, self.data = None, None
            self.shown.put(said=self.gone(), is_stale=True)

    def gone(self):
        return "" if self.seen else f"{self.path}: {GONE}"

    def look(self):
        told = os.stat(self.path)
        return told.st_mtime_ns, told.st_size, told.st_ino

    def tell(self, change, words):
        try:
            change(words)
        except (Ended, Refused, OSError) as fault:
            self.shown.put(said=str(fault), is_busy=False, is_stale=True)

    def show(self, lines):
        self.saves, self.lines = self.saves + 1, lines
        found = self.words.commands(lines)
        answers, faults = self.timed(self.town.show, lines, found)
        is_wrong = any(map(is_refused, answers))
        dress, meshes = own_meshes.told_of(self.meshes.of(lines, found, answers))
        self.town.publish(
            said="\n".join(self.said(lines, found, answers, faults)),
            is_busy=False,
            is_stale=is_wrong,
            save=self.saves,
            stats=self.stats(),
            values=self.values,
            colours={**self.shown.value("colours", {}), **about.colours(lines, found)},
            dress=dress,
            meshes=meshes,
            **({} if is_wrong else self.head(lines, found, answers)),
        )

    def said(self, lines, found, answers, faults):
        """What is wrong with a script."""
        if faults or any(map(is_refused, answers)):
            ask = asking(self.town.program)  # of a refused block all refusals are asked for
            yield from Report(self.path, lines, found, answers, ask=ask).lines_for(faults)
        elif not found:
            yield f"{self.path}: {EMPTY}"
        for number, text in chain.from_iterable(kept.unread(lines) for kept in (*KEPT, own_meshes)):
            yield f"{self.path}:{number}: {text}"
        yield from self.meshes.faults

    @staticmethod
    def head(lines, found, answers):
        """What a page is told of a script that nothing is refused in."""
        kept = chain.from_iterable(kept.head_of(lines).items() for kept in KEPT)
        return {**about.head_of(lines, found, answers), "bills": {}, **dict(kept)}

    def turned(self, values):
        refused, self.turns = self.timed(self.town.turn, values), self.turns + 1
        self.values = {**self.values, **{name: value for name, value in values.items() if name not in refused}}
        said = [*filter(None, [self.gone()]), *refused.values()]
        head = {"stats": self.stats(), "values": self.values, "turns": self.turns}
        self.town.publish(said="\n".join(said), is_stale=bool(said), **head)

    def timed(self, does, *words):
        """What it gives; how many thousandths of a second it took is noted."""
        begun = time.monotonic()
        given = does(*words)
        self.took = round(1000 * (time.monotonic() - begun))
        return given

    def stats(self):
        return {**self.town.stats, "worked": self.town.worked, "took": self.took} if self.town.stats else None
