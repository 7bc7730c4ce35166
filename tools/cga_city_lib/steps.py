"""The steps of a trace, lot by lot. Two runs derived the same of a lot where its steps are the same, each with its answers."""
from collections import defaultdict
from typing import Dict, Iterable, List, Sequence, Tuple


def steps_by_lot(lines: Iterable[bytes]) -> Dict[bytes, List[bytes]]:
    """The lines `# step ..` of each lot."""
    steps: Dict[bytes, List[bytes]] = defaultdict(list)
    for line in lines:
        steps[line.split(b" ", 3)[2]].append(line)
    return steps


def digest_of(steps: Sequence[bytes]) -> str:
    """The digest of a lot's steps, in whatever order."""
    from hashlib import sha256  # it takes long to load, and a check without rings needs none

    return sha256(b"\n".join(sorted(steps))).hexdigest()[:32]


def sizes(steps: Sequence[bytes]) -> Tuple[int, int]:
    """How many shapes a lot has, and how many of these are instances. Each shape but an instance has one step, which tells how
    many children it has, or its fault."""
    shapes = 1 + sum(int(step) for step in (line.rsplit(b" ", 1)[1] for line in steps) if step.isdigit())
    return shapes, shapes - len(steps)
