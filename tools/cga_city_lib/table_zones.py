"""Sums of lots by a property of their parcels, such as their zone: areas, floors and limits."""
from fractions import Fraction
from typing import Any, Dict, Iterator, List, NamedTuple, Optional, Sequence, Tuple

from .call import Refused, WrongValue
from .number_words import check_digits
from .numerals import decimal
from .strangers_text import told
from .table_rows import shown

HEADS = ["lots", "area", "floors", "ratio", "top", "limit", "lots above", "most above"]
Limit = Tuple[str, str, Fraction]


class Lot(NamedTuple):
    """A lot's facts, and its measures."""

    facts: Dict[str, Any]
    top: Fraction
    floors: Fraction


def limit_word(word: str) -> Tuple[str, str, Fraction]:
    """WORD=VALUE:H, as zone=W2:11; H alone is a limit of all lots."""
    name, sign, rest = word.partition("=")
    value, _, height = (rest if sign else word).rpartition(":")
    check_digits(word, height)
    if decimal(height) is None or bool(sign) != bool(name and value):
        raise WrongValue(
            f"`{told(word)}` is neither a height, such as 11, nor PROPERTY=VALUE:HEIGHT, such as zone=W2:11"
        )
    return name if sign else "", value, Fraction(decimal(height))


def limit_for(facts: Dict[str, Any], limits: Sequence[Limit]) -> Optional[Fraction]:
    """A lot's own limit, else that of a value of its properties, else that of all."""
    own = facts.get("limit")
    if own is not None:
        return Fraction(own)
    words = facts.get("told", {})
    found = [limit for word, value, limit in limits if word and words.get(word) == value]
    return next(iter(found + [limit for word, _, limit in limits if not word]), None)


def zone_rows(zone: str, lots: Sequence[Lot], limits: Sequence[Limit], places: int) -> Iterator[List[str]]:
    """The head, and a row for each value of the property, in the order in which they come first."""
    if not any(zone in lot.facts.get("told", {}) for lot in lots):
        raise Refused(
            f"no parcel has the column `{told(zone)}`: name a property of the map, as tools/parcels --list writes it"
        )
    yield [zone, *HEADS]
    groups: Dict[str, List[Lot]] = {}
    for lot in lots:
        groups.setdefault(lot.facts.get("told", {}).get(zone, ""), []).append(lot)
    for value, some in groups.items():
        yield [value, *row_of(some, limits, places)]


def row_of(lots: Sequence[Lot], limits: Sequence[Limit], places: int) -> List[str]:
    area = sum((lot.facts.get("area", Fraction(0)) for lot in lots), Fraction(0))
    floors = sum((lot.floors for lot in lots), Fraction(0))
    known = [(lot, limit_for(lot.facts, limits)) for lot in lots]
    above = [lot.top - limit for lot, limit in known if limit is not None and lot.top > limit]
    told_limits = sorted({limit for _, limit in known if limit is not None})
    numbers = [Fraction(len(lots)), area, floors, floors / area if area else None, max(lot.top for lot in lots)]
    ends = [Fraction(len(above)), max(above, default=Fraction(0))]
    between = " to ".join(dict.fromkeys(shown(part, places) for part in told_limits[:1] + told_limits[-1:]))
    return [*(shown(number, places) for number in numbers), between, *(shown(number, places) for number in ends)]
