"""Names of lots: each name of a map kept where it can be, else made one that a script takes, and no two alike."""
import re
import unicodedata
from typing import Container, Iterable, List

from .script import RESERVED

LONGEST = 32


def is_name(text: str) -> bool:
    return re.fullmatch(r"[A-Za-z_]\w{0,31}", text, re.ASCII) is not None and text not in RESERVED


def made(text: str) -> str:
    """The nearest name: letters without their marks, `_` for what no name has, `p` in front of a digit."""
    plain = unicodedata.normalize("NFKD", text).encode("ascii", "ignore").decode()
    plain = re.sub(r"\W+", "_", plain, flags=re.ASCII).strip("_")[: LONGEST - 1]
    if not plain:
        return "parcel"
    return plain if is_name(plain) else "p" + plain if plain[0].isdigit() else plain + "_"


def unlike(name: str, taken: Container[str]) -> str:
    """The name, with a number behind it where it is taken."""
    number, other = 1, name
    while other in taken:
        number += 1
        end = f"_{number}"
        other = name[: LONGEST - len(end)] + end
    return other


def lot_names(texts: Iterable[str]) -> List[str]:
    """A name for each text; a text that is a name is kept by the first that has it."""
    kept = {}
    for at, text in enumerate(texts):
        if is_name(text):
            kept.setdefault(text, at)
    taken, names = set(kept), []
    for at, text in enumerate(texts):
        name = text if kept.get(text) == at else unlike(text if text in kept else made(text), taken)
        taken.add(name)
        names.append(name)
    return names
