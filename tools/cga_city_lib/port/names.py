"""A name of a script for each name of a CGA file: no reserved word, at most 32 bytes, none twice."""
import re
from typing import Dict, Set

from ..script import RESERVED

LONGEST = 32


def plain(name: str) -> str:
    """The name with letters, digits and `_` alone, and not reserved."""
    found = re.sub(r"\W", "_", name, flags=re.ASCII)[:LONGEST] or "_"
    found = found if re.match(r"[A-Za-z_]", found) else f"_{found}"[:LONGEST]
    return f"{found}_" if found in RESERVED else found


class Names:
    """The names of one kind: of symbols, or of attributes and parameters."""

    def __init__(self) -> None:
        self.known: Dict[str, str] = {}
        self.taken: Set[str] = set()

    def of(self, name: str) -> str:
        """The name that this name has here, always the same."""
        if name not in self.known:
            self.known[name] = self.new(name)
        return self.known[name]

    def new(self, wanted: str) -> str:
        """A name that is free, near to the wanted one."""
        base, number = plain(wanted), 1
        found = base
        while found in self.taken:
            number += 1
            found = f"{base[:LONGEST - 1 - len(str(number))]}_{number}"
        self.taken.add(found)
        return found
