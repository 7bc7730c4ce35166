"""What a script has come to."""
from dataclasses import dataclass
from typing import Optional, Tuple

from .asset import Wardrobe
from .history import Kept
from .sources import EMPTY_SOURCES, Sources


@dataclass(frozen=True)
class Block:
    """A block that is open: its kind, the name of an asset, and the lines that it has so far."""

    kind: str
    name: Optional[str]
    lines: Tuple = ()


@dataclass(frozen=True)
class State:
    # the decimals of what is printed, which no line changes
    decimals: int = 6
    # only blank lines came
    fresh: bool = True
    version: int = 1
    sources: Sources = EMPTY_SOURCES
    block: Optional[Block] = None
    quiet: bool = False
    wardrobe: Wardrobe = Wardrobe()
    # the past and the future
    kept: Kept = Kept()
    # how many shapes the last accepted edit touched
    number: int = 0
