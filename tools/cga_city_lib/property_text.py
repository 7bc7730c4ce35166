"""A property of a map as text, for cells of tables and for tiles."""
from typing import Any

from .numerals import numeral
from .strangers_text import cell, told


def shown(value: Any) -> str:
    """Nothing for none, true and false by their words, a list or an object by its kind."""
    if value is None:
        return ""
    if isinstance(value, (list, dict)):
        return "(list)" if isinstance(value, list) else "(object)"
    text = str(value).lower() if isinstance(value, bool) else str(value)
    return text if numeral(value) else cell(told(text))
