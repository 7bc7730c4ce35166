"""The words by which tools/parcels and tools/sheet are told how a map's parcels become lots."""
from decimal import Decimal, InvalidOperation
from typing import Tuple

from .call import Words, WrongValue, number_in
from .fitting import FITS
from .geometry import NOWHERE
from .lot_list import COMPASS
from .number_words import check_digits
from .numerals import numeral
from .program import LAUNCHER, program_word
from .reference_system import METRES
from .strangers_text import told


def pair(word: str) -> Tuple[str, str]:
    name, _, text = word.partition("=")
    check_digits(word, text)
    if not name.isidentifier() or numeral(text) is None:
        raise WrongValue(f"`{told(word)}` isn't NAME=NUMBER, such as floors=3")
    return name, numeral(text)


def point(word: str) -> Tuple[Decimal, Decimal]:
    try:
        numbers = list(map(Decimal, word.split(",")))
    except InvalidOperation:
        numbers = []
    if len(numbers) != 2 or not all(number.is_finite() for number in numbers):
        raise WrongValue(
            f"`{told(word)}` isn't X,Y, such as 8.54,47.37: a longitude and a latitude, or an east and a north"
        )
    if not all(abs(number) < NOWHERE for number in numbers):
        raise WrongValue(f"`{told(word)}` lies nowhere on a map: each of its numbers is below {NOWHERE:,}")
    return numbers[0], numbers[1]


def add_map_words(known: Words) -> None:
    known.add_argument("map", reads=True)
    known.add_argument("rules", reads=True)
    known.add_argument("--list", writes=(".csv",))
    known.add_argument("--ground", writes=(".json",))
    known.add_argument("--front", choices=COMPASS)
    known.add_argument("--fit", choices=FITS, default="around")
    known.add_argument("--symbol")
    known.add_argument("--default", action="append", type=pair, default=[])
    known.add_argument("--units", choices=tuple(METRES))
    known.add_argument("--swap", action="store_true")
    known.add_argument("--strict", action="store_true")
    known.add_argument("--name", default="name")
    known.add_argument("--origin", type=point)
    known.add_argument("--decimals", type=number_in(0, 6, int), default=2)
    known.add_argument("--snap", type=number_in(0, 100), default=0.02)
    known.add_argument("--tolerance", type=number_in(0, 45), default=0.1)
    known.add_argument("--program", type=program_word, default=str(LAUNCHER))
