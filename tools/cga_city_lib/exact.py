"""Numbers as they are spelt, held exactly: whole numbers over one denominator for all that is compared."""
from math import gcd
from typing import List, Sequence, Tuple


def parted(text: str) -> Tuple[int, int]:
    """The numerator and the denominator of `-5`, `2.5` or `-5/2`. A ValueError where it spells no number."""
    upper, _, lower = text.partition("/")
    whole, _, decimals = upper.partition(".")
    numerator, denominator = int(whole + decimals), int(lower or 1) * 10 ** len(decimals)
    if denominator <= 0:
        raise ValueError(f"{text} divides by no number above 0")
    return numerator, denominator


def over_one(columns: Sequence[Sequence[str]]) -> Tuple[int, List[List[int]]]:
    """One denominator, and the columns of texts as whole numbers over it."""
    try:
        return 1, [list(map(int, column)) for column in columns]
    except ValueError:
        pass
    known = {text: parted(text) for column in columns for text in set(column)}
    one = 1
    for _, denominator in known.values():
        one = one * denominator // gcd(one, denominator)
    whole = {text: numerator * (one // denominator) for text, (numerator, denominator) in known.items()}
    return one, [[whole[text] for text in column] for column in columns]
