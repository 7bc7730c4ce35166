#!/usr/bin/env python3
"""A stand-in for the program that tells boxes, as far as regions need one. It takes lots outside of blocks and in `city`.

A lot has as many cubes as its seed says, in a row from its corner; its box is its ground, longer by its seed along X, and as
high as that. Where a rule asks, lots decide by their names, and one draws nothing that meets an earlier one that draws.
A lot `flat..` has a fault, one `huge..` is past the budget, and one without width is refused. With REGION_HELD in the
environment each call waits before it answers, as long as a file of that name is there.
"""
import os
import sys
import time
from itertools import product

CORNERS = [(0, 0, 0), (1, 0, 0), (1, 0, 1), (0, 0, 1), (0, 1, 0), (1, 1, 0), (1, 1, 1), (0, 1, 1)]
FACES = ["4 3 7 8", "3 2 6 7", "2 1 5 6", "1 4 8 5", "8 7 6 5", "1 2 3 4"]


def number_of(text):
    """A whole number stays one: without fractions, which load long, a start takes half as long."""
    if text.lstrip("-").isdigit():
        return int(text)
    from fractions import Fraction

    return Fraction(text)


class City:
    def __init__(self, decimals):
        self.decimals, self.rules, self.lots = decimals, [], {}

    def asks(self):
        return any("Scope.occ" in rule for rule in self.rules)

    def box(self, name):
        seed, x, z, width, depth, _ = self.lots[name]
        return x, x + width + seed, 0, seed, z, z + depth

    def drawing(self):
        """The lots that draw."""
        found = []
        for name in sorted(self.lots):
            box = self.box(name)
            others = map(self.box, found)
            meets = any(all(o[k] < box[k + 1] and box[k] < o[k + 1] for k in (0, 2, 4)) for o in others)
            if not (meets and self.asks()):
                found.append(name)
        return set(found)

    def text(self, solids=1):
        """The OBJ text; a model has each cube doubled."""
        text, number, drawing = ["# cga_city obj"], 0, self.drawing()
        for name, (seed, x, z, _, _, symbol) in self.lots.items():
            text.append(f"o {name}")
            for place, _ in product(range(seed if name in drawing else 0), range(solids)):
                text += [f"g {symbol}", *(self.vertex(x + place + a, b, z + c) for a, b, c in CORNERS)]
                text += ["f " + " ".join(str(number + int(at)) for at in face.split()) for face in FACES]
                number += len(CORNERS)
        return text

    def vertex(self, *numbers):
        return "v " + " ".join(f"{float(number):.{self.decimals}f}" for number in numbers)

    def faults(self):
        found = [f"# fault {name} / {lot[5]} FlatScope" for name, lot in self.lots.items() if name.startswith("flat")]
        return [f"# faults {len(found)}", *found]

    def instances(self):
        drawing = self.drawing()
        return {name: lot[0] * (name in drawing) for name, lot in self.lots.items()}

    def trace(self):
        steps = [
            f"# step {name} / {self.lots[name][5]} {'none' if number else 'part'} - {number}"
            for name, number in sorted(self.instances().items())
        ]
        return [f"# trace {len(steps)}", *steps]

    def bill(self):
        symbols, numbers = {}, self.instances()
        for name, lot in self.lots.items():
            if numbers[name]:
                symbols[lot[5]] = symbols.get(lot[5], 0) + numbers[name]
        return [
            f"# bill {len(symbols)}",
            *(f"# bill {symbol} {n} {n}.000001 {n}.500000 0" for symbol, n in sorted(symbols.items())),
        ]

    def stats(self):
        numbers = self.instances()
        return [
            f"# stats lots {len(numbers)} shapes {len(numbers) + sum(numbers.values())} instances {sum(numbers.values())} "
            f"faults {len(self.faults()) - 1} expanded {len(numbers)}"
        ]

    def dump(self):
        return ["version 2", "city", "order breadth", *self.rules, "end"]

    def hulls(self):
        for name in self.lots:
            x, x_end, y, y_end, z, z_end = self.box(name)
            yield " ".join(map(str, ["# hull", name, x, y, z, x_end, y_end, z_end]))

    def block(self, lines, is_city):
        """Takes the lines of a block, or refuses it as a whole."""
        rules, lots = [], {} if is_city else dict(self.lots)
        for at, line in enumerate(lines, 1):
            words = line.split("#")[0].split()
            if is_city and words[:1] == ["lot"]:
                if "0" in words[5:7] or words[1].startswith("huge"):
                    return [f"# refused BadLot {words[1]}" if "0" in words[5:7] else "# refused OverBudget"]
                lots[words[1]] = (int(words[2]), *map(number_of, words[3:7]), words[7])
            elif words[:1] == ["nonsense"]:
                return [f"# refused Unexpected at {at}:1"]
            elif words and words[0] != "order":
                rules.append(" ".join(words))
        self.rules, self.lots = rules, lots
        return ["# ok"]

    def one(self, line):
        """Takes a lot outside of blocks."""
        rules, lots = self.rules, self.lots
        taken = self.block([line], True)
        self.rules, self.lots = rules, {**lots, **self.lots} if taken == ["# ok"] else lots
        return taken


def answer(script, words=()):
    """The lines that it prints."""
    city = City(int(words[1]) if words[:1] == ["--decimals"] else 6)
    reports = {
        "print": city.text,
        "model": lambda: city.text(2),
        "faults": city.faults,
        "trace": city.trace,
        "bill": city.bill,
        "grammar": lambda: ["rules", *city.rules, "end"],
        "stats": city.stats,
        "dump": city.dump,
    }
    lines, is_quiet, said = iter(script.split("\n")), False, []
    for line in lines:
        words, reply = line.split("#")[0].split(), []
        if not words:
            continue
        if words[0] in reports:
            said += reports[words[0]]()
            continue
        if words == ["quiet"]:
            is_quiet = True
        elif words in (["rules"], ["city"]):
            reply = city.block(iter(lambda: next(lines), "end"), words == ["city"])
        elif words[0] == "lot":
            reply = city.one(line)
        elif words[0] == "asset":
            reply = ["# ok" for _ in iter(lambda: next(lines), "end")][:1]
        else:
            reply = ["# ok"] if words[0] in ("version", "attr", "put", "dress") else ["# refused Unexpected at 1"]
        said += [] if is_quiet and reply == ["# ok"] else reply
    return said + list(city.hulls())


def main():
    while os.path.exists(os.environ.get("REGION_HELD", "")):
        time.sleep(0.02)
    print(*answer(sys.stdin.read(), sys.argv[1:]), sep="\n")


if __name__ == "__main__":
    main()
