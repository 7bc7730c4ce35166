#!/usr/bin/env python3
"""wings.py [--write]: the floor plan. crates.txt names the wings, the highest first, by lines '# wing NAME: what it is',
each above its crates. Refused are an edge to a higher wing, a crate outside of a wing, a chain of more than eight crates,
and a root file that doesn't say what its crate is, what it must not know and what callers get wrong. The plan and the
tables of docs/ARCHITECTURE.md are printed from crates.txt and the root files; where they differ, that is refused too.
With --write they are written anew.
"""
import argparse
import pathlib
import re
import sys

TOP = pathlib.Path(__file__).resolve().parent.parent
PAGE = TOP / "docs/ARCHITECTURE.md"
MOST = 8
PART = re.compile(r"(<!-- printed: (\w+) -->\n).*?(<!-- end -->)", re.S)


class Crates:
    """crates.txt: the wings in order with their crates, and what each crate stands on."""

    def __init__(self, text):
        self.wings, self.below, self.faults, self.known = [], {}, [], {}
        for line in text.splitlines():
            wing = re.fullmatch(r"# wing (\w+): (.+)", line)
            crate = re.fullmatch(r"([a-z0-9_]+)[^:#]*:(.*)", line)
            if wing:
                self.wings.append((wing[1], wing[2], []))
            elif crate:
                self.below[crate[1]] = crate[2].split()
                if not self.wings:
                    self.faults.append(f"{crate[1]} stands in no wing")
                else:
                    self.wings[-1][2].append(crate[1])
        self.below = {name: [low for low in lower if low in self.below] for name, lower in self.below.items()}

    def chain(self, name):
        """A longest chain of crates that ends with this one, the lowest first."""
        if name not in self.known:
            lower = [self.chain(low) for low in sorted(self.below[name])]
            self.known[name] = max(lower, key=len, default=[]) + [name]
        return self.known[name]

    def check(self):
        rank = {name: -number for number, (_, _, names) in enumerate(self.wings) for name in names}
        for name, lower in self.below.items():
            self.faults += [f"upwards: {name} stands on {low}" for low in lower if rank[low] > rank[name]]
            if len(self.chain(name)) > MOST:
                self.faults.append(f"a chain of {len(self.chain(name))} crates: {' '.join(self.chain(name))}")


def head(name):
    """What a root file says of its crate: what it is, and what it must not know; None where it doesn't say all."""
    source = TOP / f"crates/{name}/src"
    file = source / "lib.rt" if (source / "lib.rt").is_file() else source / "main.rt"
    lines = []
    for line in file.read_text().splitlines():
        if not line.startswith("//!"):
            break
        lines.append(line[3:].strip())
    parts = " ".join(line or "\n" for line in lines).split("\n")
    what = parts[0].strip().rstrip(".")
    knows = re.search(r"It must not know (.*?)\.(?:\s|$)", " ".join(parts[1:]))
    return (what, knows[1]) if what and knows else None


def plan(crates):
    rows = [f"{wing:9} " + "   ".join(names) for wing, _, names in crates.wings]
    said = [f"- **{wing.capitalize()}**: {what}." for wing, what, _ in crates.wings]
    return "\n".join(["```", *rows, "```", "", *said])


def table(crates):
    rows = ["| Crate | What it is | What it must not know |", "|---|---|---|"]
    for wing, _, names in crates.wings:
        rows.append(f"| **{wing}** | | |")
        rows += [f"| {name} | {what} | {knows} |" for name in names for what, knows in [head(name)]]
    return "\n".join(rows)


def chains(crates):
    by_chain = {}
    for name in crates.below:
        by_chain.setdefault(tuple(crates.chain(name)[:-1]), []).append(name)
    rows = ["| Crate | Chain | Length |", "|---|---|---|"]
    for chain, names in sorted(by_chain.items(), key=lambda it: (len(it[0]), it[0])):
        lower = ", ".join(low.removeprefix("cga_") for low in chain) or "itself"
        rows.append(f"| {', '.join(sorted(names))} | {lower} | {len(chain) + 1} |")
    return "\n".join(rows)


PRINTED = {"plan": plan, "crates": table, "chains": chains}


def main():
    words = argparse.ArgumentParser(description=__doc__, formatter_class=argparse.RawDescriptionHelpFormatter)
    words.add_argument("--write", action="store_true", help="writes the plan and the tables anew")
    write = words.parse_args().write
    crates = Crates((TOP / "crates.txt").read_text())
    if not crates.faults:
        crates.check()
    crates.faults += [
        f"{name}: its root file lacks what it is or must not know" for name in crates.below if not head(name)
    ]
    if not crates.faults:
        old = PAGE.read_text()
        new = PART.sub(lambda part: part[1] + PRINTED[part[2]](crates) + "\n" + part[3], old)
        if write:
            PAGE.write_text(new)
        elif new != old:
            crates.faults.append("docs/ARCHITECTURE.md isn't what .ci/wings.py --write prints")
    for fault in crates.faults:
        print(fault)
    print(f"{len(crates.below)} crates in {len(crates.wings)} wings, {len(crates.faults)} faults")
    sys.exit(1 if crates.faults else 0)


if __name__ == "__main__":
    main()
