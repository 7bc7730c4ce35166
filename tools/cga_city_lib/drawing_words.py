"""Values of words that several tools for drawings and tables take; a wrong one is a ValueError."""
import math
from typing import Tuple

from .call import WrongValue
from .drawing import FAR, Point
from .strangers_text import told
from .table_rows import fraction_word


def line(word: str) -> Tuple[Point, Point]:
    """X,Z,X,Z as two points that differ."""
    try:
        numbers = [float(part) for part in word.split(",")]
    except ValueError:
        numbers = []
    if len(numbers) != 4 or any(map(math.isnan, numbers)):
        raise WrongValue(f"`{told(word)}` isn't X,Z,X,Z, such as 0,4,20,4: two points as four numbers")
    if not all(abs(number) < FAR for number in numbers):
        raise WrongValue(f"`{told(word)}` lies too far out: each of its numbers is below {FAR:,.0f}")
    if numbers[:2] == numbers[2:]:
        raise WrongValue(f"`{told(word)}` is a line of no length: give two points that differ")
    return (numbers[0], numbers[1]), (numbers[2], numbers[3])


def wall(word: str) -> Tuple[str, float]:
    """SYMBOL=0.3, a thickness."""
    symbol, _, text = word.rpartition("=")
    thickness = fraction_word(text) if symbol else 0
    if not 0 < thickness < 100:
        raise WrongValue(f"`{told(word)}` isn't SYMBOL=LENGTH, such as wall=0.3: a thickness above 0 and below 100")
    return symbol, float(thickness)
