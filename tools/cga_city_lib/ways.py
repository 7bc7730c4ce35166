"""The symbols above a shape that came to nothing, from its lot on: a second run of the script tells them by `trace`."""
from .program import run
from .script import commands, is_version, text_of


def places_above(path):
    """The paths above a shape's, from the root on: those of /1/0 are / and /1."""
    parts = path.strip("/").split("/")
    return ["/" + "/".join(parts[:number]) for number in range(len(parts))] if path != "/" else []


def first_ones(faults):
    """The lot and path of the first shape for each symbol and cause."""
    found = {}
    for fault in faults:
        _, _, lot, path, symbol, code = fault.split()
        found.setdefault((symbol, code), (lot, path))
    return found.values()


def traced(program, lines, wanted):
    """The symbols at the wanted lots and paths."""
    found = commands(lines)
    head = [] if found and is_version(found[0].words) else ["version 2"]
    _, out = run(program, text_of(head + lines + ["trace"]))
    steps = (line.split() for line in out if line.startswith("# step "))
    return {(step[2], step[3]): step[4] for step in steps if (step[2], step[3]) in wanted}


def ways(program, lines, faults):
    """For the first shape of each symbol and cause, by its lot and path, the symbols above it."""
    if not faults:
        return {}
    above = {(lot, path): [(lot, place) for place in places_above(path)] for lot, path in first_ones(faults)}
    symbols = traced(program, lines, {place for places in above.values() for place in places})
    return {
        shape: [symbols[place] for place in places]
        for shape, places in above.items()
        if all(place in symbols for place in places)
    }
