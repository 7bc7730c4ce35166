"""What a table of parcels says of each lot: its area, perhaps its limit of height, its name and the map's properties."""
import csv
from fractions import Fraction
from typing import Any, Dict, List

from .call import Refused
from .numerals import decimal
from .strangers_text import told


OWN = (
    "lot",
    "feature",
    "root",
    "angle",
    "area",
    "rectangle",
    "limit",
    "overlap",
    "skipped",
)  # other columns are told as they are


def read_facts(path: str) -> Dict[str, Dict[str, Any]]:
    """The facts of each lot; a row of a feature that was skipped has no lot, and none."""
    try:
        with open(path, encoding="utf-8-sig", newline="") as file:
            rows = csv.DictReader(file, strict=True)
            if not rows.fieldnames or "lot" not in rows.fieldnames:
                raise Refused(f"{path}: its header has no `lot`: take a table as tools/parcels --list writes it")
            return {row["lot"]: fact(path, rows.line_num, row) for row in rows if row["lot"]}
    except csv.Error as fault:
        raise Refused(f"{path}: isn't a table: {fault}") from None
    except UnicodeDecodeError:
        raise Refused(f"{path}: isn't text in UTF-8") from None


def fact(path: str, number: int, row: Dict[str, str]) -> Dict[str, Any]:
    found: Dict[str, Any] = {}
    for word in ("area", "limit"):
        text = (row.get(word) or "").strip()
        if text and decimal(text) is None:
            raise Refused(f"{path}: line {number}: its `{word}`, {told(text)}, isn't a number")
        if text:
            found[word] = Fraction(decimal(text))
    found["told"] = {word: text or "" for word, text in row.items() if word and word not in OWN}
    return found


def told_columns(facts: Dict[str, Dict[str, Any]]) -> List[str]:
    """The columns that a table tells as they are: the name by the map, and its properties."""
    return list(next(iter(facts.values()))["told"]) if facts else []
