#!/usr/bin/env python3
"""Replies to a script as cga_hulls does, by the definitions of tools/definition alone: behind all replies it tells of each lot
the least box that holds all of its shapes. It is slow, and needs no proof.
"""
import sys
from functools import lru_cache
from pathlib import Path

sys.path.insert(0, str(Path(__file__).resolve().parent.parent))

from definition.output import effects_of  # noqa: E402
from definition.replies import derived  # noqa: E402


def hulls(state):
    """A line for each lot, in the order of the sources."""
    found = {lot.name: [] for lot in state.sources.lots}
    for member in derived(state):
        found[member.shape.lot].append(member.shape.scope.box)
    for name, boxes in found.items():
        corners = [
            *map(min, *(box.low for box in boxes), boxes[0].low),
            *map(max, *(box.high for box in boxes), boxes[0].high),
        ]
        yield " ".join(map(str, ["# hull", name, *corners]))


def answer(script, words=()):
    """The lines that it prints."""
    return list(lines_of(script, tuple(words)))


@lru_cache(maxsize=None)
def lines_of(script, words):
    """The lines of a script, worked out once: several tests ask for one region as a whole."""
    replies = []
    for state, reply in effects_of(int(words[1]) if words else 6, script):
        replies.append(reply)
    return "".join(replies).split("\n")[:-1] + list(hulls(state))


if __name__ == "__main__":
    print(*answer(sys.stdin.buffer.read().decode("latin-1"), sys.argv[1:]), sep="\n")
