"""A name for each solid that stays over edits: LOT/PATH, from what `trace` told behind the town."""
from .call import Refused
from .replies import lines_with

ADVICE = "write the line `trace` right behind `print`, with no edit between them"


def steps_in(text):
    """The last trace in what a run printed, as (lot, path, symbol, number of children), or none."""
    steps = None
    for line in lines_with(("# trace ", "# step "), text):
        if line.startswith("# trace "):
            steps = []
        elif steps is not None:
            lot, place, symbol, _, _, result = line.split()[2:8]
            steps.append((lot, key(place), symbol, int(result) if result.isdigit() else 0))
    return steps


def key(path):
    """The indices on the way down from a lot's root."""
    return tuple(map(int, path.split("/")[1:])) if path != "/" else ()


def traced(steps):
    """For each lot the path and the symbol of each solid: a child that was never expanded itself, by its path."""
    expanded = {(lot, path) for lot, path, _, _ in steps}
    found = {}
    for lot, path, symbol, children in steps:
        found.setdefault(lot, []).extend(
            (path + (k,), symbol) for k in range(children) if (lot, path + (k,)) not in expanded
        )
    return {lot: sorted(solids) for lot, solids in found.items()}


def ids(lots, steps):
    """For each lot the ids of its solids, in the order in which they are drawn; LOT#NUMBER where nothing was traced."""
    if steps is None:
        return {lot: [f"{lot}#{number}" for number in range(len(solids))] for lot, solids in lots.items()}
    found = traced(steps)
    for lot, solids in lots.items():
        if [symbol for _, symbol in found.get(lot, [])] != [solid.symbol for solid in solids]:
            raise Refused(f"the trace has other solids of lot `{lot}` than the town: {ADVICE}")
    return {lot: [f"{lot}/{'/'.join(map(str, path))}" for path, _ in found.get(lot, [])] for lot in lots}


def ids_of(found):
    """The same of a town that was opened, and whether they stay over edits."""
    if found.ids is not None:
        return found.ids, True
    steps = steps_in(found.text())
    return ids(found.lots, steps), steps is not None
