"""Former sources, to go back to and to go on to."""
from dataclasses import dataclass
from typing import Tuple

MOST_KEPT = 16


@dataclass(frozen=True)
class Kept:
    """The sources that were left by edits, and those that were left by an undo; the latest stand last."""

    past: Tuple = ()
    future: Tuple = ()


def noted(kept, before):
    """After an accepted edit of these sources."""
    return Kept((*kept.past, before)[-MOST_KEPT:], ())


def undone(kept, now):
    """The sources that were left last, and what is kept then; None where there is no past."""
    if not kept.past:
        return None
    return kept.past[-1], Kept(kept.past[:-1], (*kept.future, now))


def turned(kept):
    return Kept(kept.future, kept.past)


def redone(kept, now):
    """An undo with past and future exchanged."""
    step = undone(turned(kept), now)
    return None if step is None else (step[0], turned(step[1]))
