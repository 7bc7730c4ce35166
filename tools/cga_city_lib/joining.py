"""Joins what the jobs printed to one OBJ text, in pieces that several processes write."""
import shutil
import signal
import sys
from collections import deque, namedtuple
from contextlib import contextmanager
from functools import partial
from itertools import accumulate, groupby

from .call import Refused
from .files import naming, write, written
from .of_plan import line_of
from .printed import OBJ, Printed, reading
from .progress import counted
from .towns import moved, objects
from .turned_text import turned_back

PIECES = 4  # for each worker, so that none waits long for the last one

# what is copied of a job's output, by how much its faces move, and by how many degrees its places are turned back
Span = namedtuple("Span", "path begin end by angle")


@contextmanager
def workers(number):
    """What maps a function over work by so many processes, which begin as copies of this one; one is this one itself."""
    if number == 1:
        yield map
        return
    from concurrent.futures.process import (
        BrokenProcessPool,
        ProcessPoolExecutor,
    )  # they take long to load, and most calls need none
    from multiprocessing import get_context

    pool = ProcessPoolExecutor(number, get_context("fork"), ended_quietly)
    try:
        yield partial(over, pool)
    except BrokenProcessPool:
        raise Refused("a process was killed, perhaps for want of memory: call it again with fewer --workers") from None
    finally:
        pool.shutdown(**{"cancel_futures": True} if sys.version_info >= (3, 9) else {})


def ended_quietly():
    """Ctrl-C ends a process of the pool without a word, also where it came while the process began; where the tool ignores it,
    as one that is begun in the background does, so does the process."""
    if signal.getsignal(signal.SIGINT) != signal.SIG_IGN:
        signal.signal(signal.SIGINT, signal.SIG_DFL)
    signal.pthread_sigmask(signal.SIG_UNBLOCK, {signal.SIGINT})


def over(pool, function, given):
    """The results in order. The pool's own `map` cancels what waits once one has failed, while a thread of the pool tells the
    same futures that a process is gone: that thread then ends with a trace, and the other processes are never ended."""
    before = signal.pthread_sigmask(signal.SIG_BLOCK, {signal.SIGINT})  # the first work begins the processes
    try:
        waiting = deque([pool.submit(function, each) for each in given])
    finally:
        signal.pthread_sigmask(signal.SIG_SETMASK, before)
    while waiting:
        yield waiting.popleft().result()


def indexed(given):
    path, names, text = given
    return objects(path, names, text)


def spans(folder, plan, pool, text):
    """The lots in the script's order."""
    jobs = plan.drawn()
    given = [(folder / "jobs" / f"{job.name}.out", plan.own(job), text) for job in jobs]
    found = []
    for job, (path, *_), places in zip(jobs, given, pool(indexed, given)):
        ends = [0, *accumulate(place.vertices for place in places)]
        found.append(iter([(path, place, here, job.angle) for place, here in zip(places, ends)]))
    before = 0
    for number in plan.deal:
        path, place, here, angle = next(found[number])
        yield Span(path, place.begin, place.end, before - here, angle)
        before += place.vertices


def pieces(found, number):
    """The spans in so many runs of about equal size."""
    found, sizes = list(found), 0
    most = 1 + sum(span.end - span.begin for span in found) // number
    runs = [[]]
    for span in found:
        if sizes > most * len(runs):
            runs.append([])
        runs[-1].append(span)
        sizes += span.end - span.begin
    return runs


def write_piece(given):
    path, found = given
    with naming(path), path.open("wb") as piece:
        for source, spans_of in groupby(found, lambda span: span.path):
            with source.open("rb") as opened, reading(source):
                for span in spans_of:
                    opened.seek(span.begin)
                    piece.write(turned_back(moved(opened.read(span.end - span.begin), span.by), span.angle))
    return path


def join_text(path, found, pool, number, end):
    """Writes one of the OBJ texts of the town."""
    given = [(path.with_name(f"{path.name}.{at}.piece"), run) for at, run in enumerate(pieces(found, PIECES * number))]
    try:
        with written(path) as file:
            file.write(OBJ)
            for piece in counted(pool(write_piece, given), "pieces joined", len(given)):
                with piece.open("rb") as read:
                    shutil.copyfileobj(read, file, 1 << 24)
                piece.unlink()
            file.write(end)
    finally:
        for leftover, _ in given:
            if leftover.exists():
                leftover.unlink()


def faults(folder, plan):
    """The text of `faults`, by the script's order of lots."""
    listed = {}
    for job in plan.drawn():
        for line in Printed(folder, plan, job).faults():
            listed.setdefault(line.split()[2], []).append(line + "\n")
    lines = [line for name in (plan.names() if listed else ()) for line in listed.get(name, [])]
    return f"# faults {len(lines)}\n" + "".join(lines)


def join(folder, plan, number, to):
    """Writes the town, its faults, and its model where the script asks for one, to a folder. Gives the files."""
    texts, end = ["town.obj", "model.obj"][: 1 + ("model" in plan.asked)], line_of(plan.digest())
    with workers(number) as pool:
        for text, name in enumerate(texts):
            join_text(to / name, spans(folder, plan, pool, text), pool, number, end)
    write(to / "town.faults", faults(folder, plan).encode("latin-1") + end)
    return [to / name for name in texts]
