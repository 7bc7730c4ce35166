#!/usr/bin/env python3
"""Times the preview in headless Chromium: from a save to the picture, bytes sent, and Python's processor seconds a save.

usage: bench/page_speed.py [--program PATH] [--saves N] [--page PATH] [--only TEXT] LOTS ..

Each town has LOTS lots by the rules of bench/live_speed.py. A save moves a lot, adds one, changes a rule or an attribute of
few lots or of all, or takes half of the lots out or back. Told are the least and the middle time of N saves, in thousandths of
a second: until the page has the change, and until its picture is drawn. Chromium draws by the processor alone here, so the
second one says little of a graphics processor. The fine picture that the page draws when nothing is asked for is left out.
Behind them eleven edits of all show what memory the page and the preview keep.
With --page each row goes into that page as soon as it is measured, as docs/PREVIEW.md; with --only the rows alone whose name has
that text, or the first picture or the memory, if it is `first` or `memory`.
"""
import argparse
import os
import re
import statistics
import subprocess
import sys
import tempfile
import time
from pathlib import Path

TOP = Path(__file__).resolve().parent.parent
sys.path[:0] = [str(TOP / "tools" / "tests"), str(TOP / ".ci")]

import live_speed  # noqa: E402
import tables  # noqa: E402
from browser import Browser  # noqa: E402

WATCH = """(() => {
  window.noted = {is_wanted: true};
  refine = () => {};
  const take_was = take, draw_was = draw;
  take = (told, data, from) => {
    take_was(told, data, from);
    noted.bytes = (noted.bytes || 0) + data.byteLength;
    if (told.tables.length) Object.assign(noted, {taken: performance.now(), is_wanted: true});
  };
  draw = () => {
    draw_was();
    if (!noted.is_wanted) return;
    drawn();
    Object.assign(noted, {drawn: performance.now(), is_wanted: false});
  };
  window.drawn = () => gl.readPixels(0, 0, 1, 1, gl.RGBA, gl.UNSIGNED_BYTE, new Uint8Array(4)); // waits until it is drawn
  is_asked = false; // a picture that was asked for before isn't noted
  ask_draw();
})()"""
FRAME = "(() => { drawn(); const from = performance.now(); draw(); drawn(); return performance.now() - from; })()"
SENT = "performance.getEntriesByType('resource').reduce((sum, one) => sum + one.encodedBodySize, 0)"
TICK = os.sysconf("SC_CLK_TCK")
FIRST = ["Lots", "Triangles", "First picture", "Python", "Bytes sent", "A picture again"]
SAVES = ["Lots", "Save", "Python", "Bytes sent", "There: least, middle", "Aim", "Drawn: least, middle"]
MEMORY = [
    "Lots",
    "Page after one edit of all",
    "Page after ten more",
    "Preview after one",
    "Preview after ten more",
]
AIMS = {  # thousandths of a second by kind of save
    "a lot": {200: 50, 1000: 80, 4000: 100},
    "all": {200: 500, 1000: 2000, 4000: 3000},
    "half": {200: 300, 1000: 1000, 4000: 2000},
}


class Town:
    """The script of a town, as a file that can be saved with changes."""

    def __init__(self, path, lots):
        floors, self.size = live_speed.shape_of(lots)
        self.path, self.lots = path, [live_speed.lot(place, self.size) for place in range(lots)]
        self.rules = live_speed.RULES.format(floors=floors)

    def save(self):
        other = self.path.with_suffix(".new")
        other.write_text("version 2\nquiet\nrules\n" + self.rules + "end\n" + "".join(self.lots), encoding="utf-8")
        os.replace(other, self.path)

    def change(self, pattern, text):
        self.rules, times = re.subn(pattern, text, self.rules)
        assert times == 1, pattern


def move(town, turn):
    place = 37 * (turn + 1) % len(town.lots)
    town.lots[place] = live_speed.lot(place, town.size, turn + 1)


def add(town, turn):
    town.lots.append(live_speed.lot(len(town.lots), town.size))


def rule_of_few(town, turn):
    town.change(r"spire( \+ 0\.\d+)?, 1r\) I", f"spire + 0.{turn + 1}, 1r) I")


def rule_of_all(town, turn):
    town.change(r"(8: window -> S\(1r, 1r, )[\d.]+", rf"\g<1>0.{30 + turn}")


def attribute_of_few(town, turn):
    town.change(r"attr spire = \d", f"attr spire = {3 - turn % 2}")


def attribute_of_all(town, turn):
    town.change(r"attr bay = [\d/]+", f"attr bay = {('3', '5/2')[turn % 2]}")


def turns_of_all(town):
    """Eleven turns of an attribute of all, each of which changes the town; the last one leads to the town of the first."""
    first = 0 if "attr bay = 5/2" in town.rules else 1
    return range(first, first + 11)


def half_out(town, turn):
    town.kept, town.lots = town.lots, town.lots[::2]


def half_back(town, turn):
    town.lots = town.kept


CHANGES = {
    "a lot moved": move,
    "a lot added": add,
    "a rule of few": rule_of_few,
    "a rule of all": rule_of_all,
    "an attribute of few": attribute_of_few,
    "an attribute of all": attribute_of_all,
}
HALVES = {"half of the lots out": half_out, "half of the lots back": half_back}


def seconds_of(process):
    """Processor seconds of a process, without those of its children."""
    words = Path(f"/proc/{process.pid}/stat").read_text(encoding="ascii").rpartition(")")[2].split()
    return (int(words[11]) + int(words[12])) / TICK


def parents():
    """The parent of each process."""
    found = {}
    for stat in Path("/proc").glob("[0-9]*/stat"):
        try:
            found[int(stat.parent.name)] = int(stat.read_text(errors="replace").rpartition(")")[2].split()[1])
        except OSError:
            pass  # it has ended
    return found


def megabytes(process):
    """What a process and all below it have resident; what several share counts once."""
    above, below, more = parents(), set(), {process.pid}
    while more:
        below |= more
        more = {one for one, parent in above.items() if parent in below} - below
    told = "".join(Path(f"/proc/{one}/smaps_rollup").read_text(encoding="ascii") for one in below if one in above)
    return sum(map(int, re.findall(r"^Pss: +(\d+) kB$", told, re.MULTILINE))) / 1000


def zero_of(browser):
    """The moment of this clock at which the page's clock was at 0, by the quickest of some looks at both. The time of day may be
    set meanwhile."""
    found = []
    for _ in range(5):
        before = time.monotonic()
        now = browser.run("performance.now()") / 1000
        behind = time.monotonic()
        found.append((behind - before, (before + behind) / 2 - now))
    return min(found)[1]


def saved(browser, preview, town, change, turn):
    """Milliseconds until the change was there and drawn, bytes, and processor seconds."""
    browser.run("noted = {}")
    number, before, zero = browser.run("head.save"), seconds_of(preview), zero_of(browser)
    change(town, turn)
    begun = time.monotonic()
    town.save()
    browser.wait(f"head.save > {number} && noted.drawn > noted.taken", 300)
    noted = browser.run("noted")
    return (
        1000 * (zero - begun) + noted["taken"],
        1000 * (zero - begun) + noted["drawn"],
        noted["bytes"],
        seconds_of(preview) - before,
    )


def both(times):
    return f"{min(times):.0f}, {statistics.median(times):.0f} ms"


def aim(lots, name):
    found = [by_lots.get(lots) for word, by_lots in AIMS.items() if name.startswith(word) or name.endswith(" " + word)]
    return f"{found[0]} ms" if found and found[0] else ""


def row_of(lots, name, times):
    """The cells of a kind of save."""
    taken, drawn, more, spent = zip(*times)
    numbers = [f"{statistics.median(spent):.2f} s", f"{statistics.median(more):,.0f}", both(taken), aim(lots, name)]
    return [f"{lots:,}", name, *numbers, both(drawn)]


def rows(browser, preview, town, lots, saves, only):
    """The rows of the kinds of saves, each as soon as it is measured. Half of the lots go and come by turns."""
    if any(only in name for name in HALVES):
        told = [
            {name: saved(browser, preview, town, change, turn) for name, change in HALVES.items()}
            for turn in range(saves)
        ]
        yield from (row_of(lots, name, [half[name] for half in told]) for name in HALVES)
    for name, change in CHANGES.items():
        if only in name:
            yield row_of(lots, name, [saved(browser, preview, town, change, turn) for turn in range(saves)])


def memory(browser, preview, town, lots):
    """The memory after one edit of all, and after ten more."""
    found, turns = [], turns_of_all(town)
    for turn in turns:
        saved(browser, preview, town, attribute_of_all, turn)
        if turn in (turns[0], turns[-1]):
            browser.ask("HeapProfiler.collectGarbage")
            found.append((megabytes(browser.process), megabytes(preview)))
    return [f"{lots:,}", *(f"{many:.0f} MB" for kind in zip(*found) for many in kind)]


def opened(browser, preview):
    """Opens the page; the seconds until its first picture."""
    address = re.match(r"(http://127\.0\.0\.1:\d+/) ", preview.stdout.readline())
    if not address:
        sys.exit("the preview didn't begin")
    begun = time.monotonic()
    browser.open(address.group(1))
    browser.run(WATCH)
    browser.wait("town.low !== null && !head.is_busy && noted.drawn > 0", 600)
    return time.monotonic() - begun


def measure(words, folder, lots):
    """Tells the first picture, a row for each kind of save, and the memory."""
    town = Town(Path(folder) / f"town{lots}.cga", lots)
    town.save()
    call = [
        TOP / "tools" / "preview",
        *(["--program", words.program] if words.program else []),
        "--port",
        "0",
        town.path,
    ]
    preview, browser = subprocess.Popen(call, stdout=subprocess.PIPE, text=True), Browser(1280, 800)
    try:
        first, used = opened(browser, preview), seconds_of(preview)
        if words.only in "first":
            many = [
                f"{first:.2f} s",
                f"{used:.2f} s",
                f"{browser.run(SENT):,}",
                f"{min(browser.run(FRAME) for _ in range(3)):.0f} ms",
            ]
            tables.tell_row(FIRST, [f"{lots:,}", f"{browser.run('town.triangles'):,}", *many], 1, words.page)
        for row in rows(browser, preview, town, lots, words.saves, words.only):
            tables.tell_row(SAVES, row, 2, words.page)
        if words.only in "memory":
            tables.tell_row(MEMORY, memory(browser, preview, town, lots), 1, words.page)
    finally:
        browser.close()
        preview.terminate()
        preview.wait()


def main():
    parser = argparse.ArgumentParser(
        usage="bench/page_speed.py [--program PATH] [--saves N] [--page PATH] [--only TEXT] LOTS ..", allow_abbrev=False
    )
    parser.add_argument("--program")
    parser.add_argument("--saves", type=int, default=3)
    parser.add_argument("--page")
    parser.add_argument("--only", default="")
    parser.add_argument("lots", type=int, nargs="+")
    words = parser.parse_args()
    with tempfile.TemporaryDirectory() as folder:
        for lots in words.lots:
            measure(words, folder, lots)


if __name__ == "__main__":
    main()
