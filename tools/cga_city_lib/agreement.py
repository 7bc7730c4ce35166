"""Whether the parts of a region that is kept agree, behind an edit, on what they see of each other.

For an own lot of a part and an own lot of another one either the first part has derived the other lot, too, by the same steps,
or their boxes don't touch: neither as both parts tell them, nor as the first part alone does. What is told of a part is kept,
so a pair is compared again only where something of it was told otherwise, or one of its lots came to another part.
"""
from typing import Iterator, List, NamedTuple, Set, Tuple

from .apart import touch
from .kept_parts import Part, Parts, Was


class Differing(NamedTuple):
    """An own lot of a part, and an own lot of another one that it doesn't see as it is there."""

    part: Part
    lot: str
    other: str


class Change(NamedTuple):
    """Of a part its own lots that are new or are told otherwise; and its neighbours that are, or that came or went. Where an own
    lot is told otherwise, all neighbours count."""

    own: List[str]
    ring: Set[str]


def change_of(part: Part, was: Was) -> Change:
    """What changed since the part was that."""
    told = {name for name, now in part.told.items() if was.told.get(name) != now}
    own = [name for name in part.own if name in told or name not in was.own]
    return Change(own, (part.ring if own else part.ring & told) | (part.ring ^ was.ring))


def changes(parts: Parts) -> Iterator[Tuple[Part, Change]]:
    """What is to be compared: what changed, where all agreed before the edit, else all."""
    if parts.is_checked:
        yield from ((part, change_of(part, was)) for part, was in parts.before.items())
    else:
        yield from ((part, Change(list(part.own), part.ring)) for job in parts.jobs for part in job.parts)


def differing(parts: Parts) -> Iterator[Differing]:
    """The pairs that don't agree."""
    for part, change in changes(parts):
        for name in change.own:
            yield from around(parts, part, name)
            for holder in parts.holders.get(name, ()):
                yield from within(holder, name, part)
        for name in change.ring:
            home = parts.home.get(name)
            if home is not None and home is not part:
                yield from within(part, name, home)


def around(parts: Parts, part: Part, name: str) -> Iterator[Differing]:
    """An own lot and those of other parts whose boxes touch its box."""
    for other in parts.boxes.touching(part.told[name].box):
        home = parts.home[other]
        if home is part:
            continue
        if not part.has_as(other, home):
            yield Differing(part, name, other)
        if not home.has_as(name, part):
            yield Differing(home, other, name)


def within(part: Part, name: str, home: Part) -> Iterator[Differing]:
    """Own lots that a lot of another part touches, and of which this one derived something else."""
    if part.has_as(name, home):
        return
    boxes = [told[name].box for told in (part.told, home.told) if name in told]
    for own in part.own:
        if any(touch(part.told[own].box, box) for box in boxes):
            yield Differing(part, own, name)
