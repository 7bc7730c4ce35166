"""Follows a script: does at each save what the save has changed, and the edits of sliders, in a thread of its own."""
import threading
import time
from collections import namedtuple
from fractions import Fraction
from queue import Queue

import cga_city
from cga_city_lib.ground_file import read_ground
from cga_city_lib.ground_solids import LOT, solids_of
from cga_city_lib.script import words_of

from .drawing import ByChanges, ByText

PAUSE = 0.1  # seconds between two looks at the file
PLAIN = (
    "rules",
    "lot",
    "print",
    "stats",
    "faults",
    "trace",
    "bill",
    "quiet",
    "version",
)  # commands that leave no history behind

# lots: the solids of each lot that is drawn otherwise; attributes: name and value; said: what was refused; seconds: what it took
Update = namedtuple("Update", "lots attributes stats said seconds")


def ground_update(path):
    """The ground of a map as an object beside the lots."""
    return Update({LOT: solids_of(read_ground(path))}, None, None, [], 0.0)


class Link:
    """By cga_live, so that an edit costs what it changes, or by another program that is said."""

    def __init__(self, path, program=None, live=False):
        self.path, self.program, self.is_live = path, program, live if program else True
        self.updates, self.pending, self.lock = Queue(), {}, threading.Lock()
        self.city, self.drawing, self.done, self.seen, self.is_over = None, None, [], None, False
        self.thread = threading.Thread(target=self.run, daemon=True)
        self.thread.start()

    def set(self, name, value):
        """Asks for another value of an attribute; of several that come before one is done the last counts."""
        with self.lock:
            self.pending[name] = value

    def stop(self):
        self.is_over = True
        self.thread.join(10)

    def run(self):
        while not self.is_over:
            try:
                self.look()
            except (OSError, cga_city.Ended, cga_city.NotBuilt) as fault:
                self.end()
                self.updates.put(Update({}, None, None, [str(fault)], 0.0))
                time.sleep(1)
            time.sleep(PAUSE)
        self.end()

    def end(self):
        if self.city is not None:
            self.city.close()
        self.city, self.done = None, []

    def look(self):
        with open(self.path, encoding="utf-8", errors="surrogateescape") as file:
            text = file.read()
        with self.lock:
            edits, self.pending = self.pending, {}
        begun = time.monotonic()
        if text != self.seen:
            self.seen = text
            self.tell(begun, self.save(text))
        elif edits and self.city is not None:
            self.tell(begun, self.do([[f"attr {name} = {written(value)}"] for name, value in edits.items()]))

    def tell(self, begun, said):
        lots = self.drawing.update(self.city)
        self.updates.put(Update(lots, self.city.attributes(), self.city.stats(), said, time.monotonic() - begun))

    def save(self, text):
        """Does the edits that a save comes to, or begins again from nothing if edits can't say it; tells what was refused."""
        try:
            commands = cga_city.cut(text)
        except cga_city.Refused as fault:
            return [str(fault)]
        edits = edits_between(self.done, commands) if self.city is not None else None
        said = self.do(edits) if edits is not None else ["-"]
        if said:
            self.begin()
            said = self.do(commands)
        self.done = commands
        return said

    def begin(self):
        self.end()
        self.city = cga_city.City(self.program, live=self.is_live)
        if self.drawing is None:
            self.drawing = ByChanges() if self.is_live else ByText()
        self.drawing.begin()

    def do(self, commands):
        said = []
        for lines in commands:
            if words_of(lines[0])[:1] not in (["print"], ["quiet"], ["version"], ["model"]):
                reply = self.city.ask("\n".join(lines))
                if reply[0].startswith("# refused "):
                    said.append(str(cga_city.refused(reply[0], lines)))
        return said


def written(value):
    """A number as a script has it, with at most six decimals."""
    return (
        str(Fraction(value).limit_denominator(10**6))
        if isinstance(value, Fraction)
        else f"{value:.6f}".rstrip("0").rstrip(".")
    )


def edits_between(old, new):
    """The commands that make of what the old ones came to what the new ones come to, or none where that isn't plain to see."""
    if new[: len(old)] == old:
        return new[len(old) :]
    if not all(words_of(lines[0])[:1] and words_of(lines[0])[0] in PLAIN for lines in [*old, *new]):
        return None
    blocks, lots = zip(*((last(commands, "rules"), by_name(commands)) for commands in (old, new)))
    edits = [blocks[1]] if blocks[0] != blocks[1] and blocks[1] else []
    edits += [[f"unlot {name}"] for name in lots[0] if name not in lots[1]]
    return edits + [lines for name, lines in lots[1].items() if lots[0].get(name) != lines]


def last(commands, word):
    return next((lines for lines in reversed(commands) if words_of(lines[0]) == [word]), None)


def by_name(commands):
    """The last line of each lot."""
    heads = ((words_of(lines[0]), lines) for lines in commands)
    return {words[1]: lines for words, lines in heads if words[:1] == ["lot"] and len(words) > 1}
