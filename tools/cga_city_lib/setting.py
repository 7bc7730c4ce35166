"""Where a town is set in another program: what is taken off its coordinates, and how long its unit is."""
import math
from collections import namedtuple
from decimal import Decimal

from .call import Refused, WrongValue
from .instances import box_of
from .number_words import check_digits
from .numerals import decimal, plain
from .strangers_text import told as told_word

FAR = 10_000  # farther out, floats of 32 bits are apart by more than a thousandth
STEP = 1_000

Setting = namedtuple("Setting", "offset metres")  # decimals: three in the town's unit, and one


def add_words(known):
    known.add_argument("--offset", nargs=3, type=number)
    known.add_argument("--metres", type=number, default=Decimal(1))


def number(text):
    check_digits(text, text)
    value = decimal(text)
    if value is None:
        raise WrongValue(f"`{told_word(text)}` isn't a number: --offset takes three, and --metres one")
    return Decimal(value)


def setting_of(lots, words):
    """The setting that the words say, or that fits the town."""
    if words.metres <= 0:
        raise Refused("--metres has to be above 0")
    return Setting(tuple(words.offset) if words.offset else tuple(map(far, *box_of(lots))), words.metres)


def far(low, high):
    return Decimal(math.floor(low / STEP) * STEP if max(abs(low), abs(high)) > FAR else 0)


def told(setting):
    return f"offset {' '.join(map(plain, setting.offset))}, 1 unit = {plain(setting.metres)} m"
