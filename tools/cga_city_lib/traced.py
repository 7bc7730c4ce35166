"""The solids in a trace, in the order of `print`: a child that was never expanded itself is one."""
from functools import lru_cache
from itertools import accumulate, count
from operator import add
from typing import Dict, Iterator, List, Sequence, Tuple

WORDS = 8  # of a step: `# step LOT PATH`, three more, and the number of children
PIECE = 4096  # steps that are cut into words at once


@lru_cache(maxsize=None)
def number_of(result: str) -> int:
    """The children of a step; a fault has none."""
    return int(result) if result.isdigit() else 0


class Traced:
    """The steps of a derivation. Solids are numbered in the order of the steps; a solid's id is its lot's name and its path."""

    def __init__(self, steps: Sequence[str]) -> None:
        keys: List[str] = []
        befores: List[str] = []
        counts: List[int] = []
        for at in range(0, len(steps), PIECE):
            words = " ".join(steps[at : at + PIECE]).split(" ")
            paths = words[3::WORDS]
            some = list(map(add, words[2::WORDS], paths))
            keys += some
            befores += [key if path == "/" else key + "/" for key, path in zip(some, paths)]
            counts += map(number_of, words[7::WORDS])
        self.known: Dict[str, int] = dict(zip(keys, count()))
        self.ends = [0, *accumulate(counts)]
        self.ids: List[str] = []
        self.below = self.children(befores, counts)

    def children(self, befores: Sequence[str], counts: Sequence[int]) -> List[int]:
        """The children of all steps one behind the other: their places among the steps, and below 0 those among the solids."""
        words = [str(number) for number in range(max(counts, default=0))]
        keys = [before + word for before, number in zip(befores, counts) for word in words[:number]]
        found = list(map(self.known.get, keys))
        self.ids = [key for key, at in zip(keys, found) if at is None]
        solids = count(-1, -1)
        return [next(solids) if at is None else at for at in found]

    def in_order(self, lots: Sequence[str]) -> Iterator[Tuple[str, List[int]]]:
        """Lot by lot the numbers of its solids, by their paths."""
        below, ends = self.below, self.ends
        for lot in lots:
            root = self.known.get(lot + "/")
            waiting, found = [] if root is None else [root], []
            while waiting:
                at = waiting.pop()
                if at < 0:
                    found.append(-at - 1)
                else:
                    waiting += below[ends[at] : ends[at + 1]][::-1]
            yield lot, found
