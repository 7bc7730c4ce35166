#!/usr/bin/env python3
"""A region that is kept by a real Slurm of two nodes on this machine, its processes begun by srun: random edits beside one cga_live
of the whole town, while a node goes down and comes back. It says so and ends well where Slurm isn't installed.

usage: tools/tests/kept_by_slurm.py [--edits N] [KIND ..]      as root, after `apt-get install slurm-wlm munge`

A KIND is one of kept_regions.py; rows and wall if none is said. N edits are made before the node goes down, while it is down, and
once it is back. It takes a minute or two where nothing else runs.
"""
import argparse
import random
import time

import slurm_on_loopback
from kept_regions import KINDS, TOP, Beside, Talk, edits
from slurm_on_loopback import cluster_up, ended, expect, is_here, said, wait

BY = "srun -Q -n 1 --mem=20M"
# one processor for each process, and the nodes take turns
slurm_on_loopback.CONFIG = slurm_on_loopback.CONFIG.replace("CPUs=2", "CPUs=40").replace("State=UP", "State=UP LLN=YES")


class BesideBySlurm(Beside):
    def begin(self):
        self.kept = Talk(TOP / "tools" / "region", self.folder, "--by", BY)
        self.drawn = self.kept.ask("")[1]


def nodes():
    """How many processes run on each node."""
    found = said("squeue", "-h", "-t", "R", "-o", "%N").split()
    return {node: found.count(node) for node in ("one", "two")}


def asked(beside, lines, number, told):
    """Makes some edits, each of which both tell alike."""
    begun = time.monotonic()
    for _ in range(number):
        beside.ask(next(lines))
    expect(True, f"{number} edits {told} are told alike")
    print(f"   in {time.monotonic() - begun:.1f} s, with {nodes()}")


def kept(name, cluster, top, number):
    """The edits of one kind."""
    beside = BesideBySlurm(name, top)
    try:
        expect(beside.drawn == beside.first, f"what is drawn of {name} at the beginning is the town")
        lines = edits(beside.kind, random.Random(7), 4 * number)
        asked(beside, lines, number, "by two nodes")
        busy = max(nodes(), key=nodes().get)
        cluster.node_down(busy)
        print(f"node {busy} goes down")
        asked(beside, lines, number, "while a node is down")
        expect(
            nodes()[busy] == 0 or "down" not in said("sinfo", "-h", "-n", busy, "-o", "%T"),
            "no process is where none can be",
        )
        cluster.node_up(busy)
        wait(lambda: "idle" in said("sinfo", "-h", "-n", busy, "-o", "%T"), f"{busy} to be back")
        asked(beside, lines, number, "once it is back")
        for report in ("dump", "faults", "print", "grammar"):
            beside.ask(report)
    finally:
        beside.close()
    wait(ended, "the processes to end with the tool", 60)
    expect(True, "no process is left behind")


def main():
    known = argparse.ArgumentParser(description=__doc__, formatter_class=argparse.RawDescriptionHelpFormatter)
    known.add_argument("--edits", type=int, default=20)
    known.add_argument("kinds", nargs="*", choices=[[], *KINDS], metavar="KIND")
    words = known.parse_args()
    if not is_here():
        return
    with cluster_up() as cluster:
        for name in words.kinds or ("rows", "wall"):
            top = cluster.folder / name
            top.mkdir()
            kept(name, cluster, top, words.edits)


if __name__ == "__main__":
    main()
