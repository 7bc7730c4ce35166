#!/usr/bin/env python3
"""Times edits of towns that are kept by a pipe: milliseconds from the line until what it changed is read, and bytes. Beside
them a `print` of the whole, and the memory of cga_live and cga_city while a town of 1,000 lots comes from nothing. A line
that is refused, or that cga_live tells nothing of, ends it: it says nothing of an edit.
"""
import argparse
import os
import statistics
import subprocess
import sys
import tempfile
import time
from pathlib import Path

sys.path.append(str(Path(__file__).resolve().parent.parent / ".ci"))

import tables  # noqa: E402
import works  # noqa: E402
from live_town import Town  # noqa: E402

TOWER = '10: tower -> S(1r, spire, 1r) I("cube") Comp("sidefaces") {{ facade }}\n'
RULES = "attr spire = 2\n" + works.RULES.replace("PRIORITY 2:\n", TOWER + "PRIORITY 2:\n")
MARK, MARKED = b"print no_such_lot\n", b"# refused NoLot no_such_lot\n"
SIZES = (15, 200, 1000, 4000)


def lot(place, size, change=0):
    """The line of a lot in rows of forty; each fiftieth is a tower."""
    sizes = f"{size + (place + change) % 3} {size - 2 + (place + change) % 2}"
    symbol = "tower" if place % 50 == 7 else "lot"
    return f"lot t{place} {1000 + place + 5000 * change} {14 * (place % 40)} {14 * (place // 40)} {sizes} {symbol}\n"


def shape_of(lots):
    """Floors and sizes of houses, so that the town is within the budget."""
    return (1, 5) if lots > 1000 else (3, 10)


def town(lots):
    floors, size = shape_of(lots)
    return (
        "version 2\ncity\n" + RULES.format(floors=floors) + "".join(lot(place, size) for place in range(lots)) + "end\n"
    )


class Kept:
    """A running program that is asked by a pipe."""

    def __init__(self, program):
        self.process = subprocess.Popen([program], stdin=subprocess.PIPE, stdout=subprocess.PIPE)

    def ask(self, text):
        """The seconds until all of the reply is there, and the reply."""
        begun, reply = time.perf_counter(), []
        self.process.stdin.write(text.encode() + MARK)
        self.process.stdin.flush()
        while not reply or reply[-1] != MARKED:
            reply.append(self.process.stdout.readline())
            if not reply[-1]:
                sys.exit("the program ended")
        return time.perf_counter() - begun, reply[:-1]

    def end(self):
        self.process.stdin.close()
        self.process.wait()


class Told(Town):
    """Counts what went and came, and keeps none of it."""

    def count(self, line, sign, by):
        pass


def asked(kept, lines):
    """The least and the middle time of some lines, and the bytes and the instances that were told of the last."""
    times, reply = [], []
    for line in lines:
        spent, reply = kept.ask(line)
        times.append(1000 * spent)
        if reply[:1] and reply[0].startswith(b"# refused"):
            sys.exit(line.strip() + " is " + reply[0].decode().strip("# \n"))
    told = Told()
    for _ in told.take(line.decode() for line in reply):
        pass
    return (
        ", ".join(f"{time:.{0 if time >= 10 else 2}f}" for time in (min(times), statistics.median(times))) + " ms",
        sum(map(len, reply)),
        told.told,
    )


def works(lots):
    """Edits by turns, so that each changes the town; with a longer bay there are fewer shapes, so none is refused."""
    _, size = shape_of(lots)
    yield "an edit of one lot", [lot(37 * number % lots, size, 1 + number) for number in range(20)]
    yield "an attribute of few", [f"attr spire = {value}\n" for value in (3, 2) * 5]
    yield "an attribute of all", [f"attr bay = {value}\n" for value in ("3", "5/2") * 2]
    yield "`print` of all", ["print\n"] * 3


def row(lots, work, lines, both):
    """A line's cells; the bytes and the instances are those of cga_live."""
    (live, size, told), (city, _, _) = (asked(kept, lines) for kept in both)
    if not told and not work.startswith("`"):
        sys.exit(f"cga_live tells nothing of {lines[-1].strip()}")
    return f"{lots:,}", work, live, city, f"{size:,}", f"{told:,}" if told else ""


def memory(program, script):
    """The processor seconds and the most megabytes of one run."""
    with tempfile.TemporaryFile() as text:
        text.write(script.encode())
        text.seek(0)
        started = subprocess.Popen([program], stdin=text, stdout=subprocess.DEVNULL)
        _, _, used = os.wait4(started.pid, 0)
        return used.ru_utime, used.ru_maxrss / 1000


def edits(live, city, sizes):
    """A row for each town and each work."""
    for lots in sizes:
        both = [Kept(live), Kept(city)]
        for kept in both:
            _, reply = kept.ask(town(lots))
            if b"# ok\n" not in reply[1:2]:
                sys.exit(f"the town of {lots} lots is {reply[1].decode()}")
        for work, lines in works(lots):
            yield row(lots, work, lines, both)
            print(".", end="", file=sys.stderr, flush=True)
        for kept in both:
            kept.end()


def towns(programs):
    """A row for each program: the town of 1,000 lots from nothing."""
    for name, program in programs.items():
        times, sizes = zip(*(memory(program, town(1000)) for _ in range(3)))
        yield name, f"{min(times):.2f} s", f"{max(sizes):.0f} MB"


def main():
    parser = argparse.ArgumentParser(description=__doc__)
    parser.add_argument("live", help="cga_live")
    parser.add_argument("city", help="cga_city")
    parser.add_argument("--lots", type=int, nargs="*", default=SIZES)
    parser.add_argument("--page", help="the page, as docs/LIVE.md, into which the tables go")
    words = parser.parse_args()
    head = ["Lots", "Line", "cga_live: least, middle", "cga_city", "Bytes of cga_live", "Instances told"]
    tables.tell(tables.table(head, edits(words.live, words.city, words.lots)), words.page)
    programs = {"cga_live": words.live, "cga_city": words.city}
    tables.tell(tables.table(["1,000 lots from nothing by", "Processor", "Most memory"], towns(programs)), words.page)


if __name__ == "__main__":
    main()
