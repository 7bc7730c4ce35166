"""Exact numbers: fractions in lowest terms of which no part is past 2^62, and their texts."""
import re
from fractions import Fraction

from .fault import Fault

LIMIT = 2**62
ZERO = Fraction(0)


def in_range(a):
    return -LIMIT <= a.numerator <= LIMIT and a.denominator <= LIMIT


def checked(a):
    """The number, or Overflow where it leaves the range."""
    if not in_range(a):
        raise Fault("Overflow")
    return a


def quotient_of(a, b):
    if b == 0:
        raise Fault("ZeroDivide")
    return checked(a / b)


def floor_of(a):
    return a.numerator // a.denominator


def ceil_of(a):
    return -(-a.numerator // a.denominator)


def decimal_of(text):
    """What digits say, with a point and digits behind it or without; None for any other form, or more than 18 digits."""
    if not re.fullmatch(r"[0-9]+(\.[0-9]+)?", text) or len(text.replace(".", "")) > 18:
        return None
    return Fraction(text)


def round_of(a, places):
    """The whole number nearest to a * 10^places, and of two equally near ones the one farther from zero."""
    nearest = (2 * abs(a.numerator) * 10**places + a.denominator) // (2 * a.denominator)
    return -nearest if a < 0 else nearest


def pointed(places, n):
    """The digits of n with a point before the last so many, and at least one digit before it."""
    digits = str(n).rjust(places + 1, "0")
    return f"{digits[:-places]}.{digits[-places:]}" if places else digits


def decimal_text_of(a, places):
    z = round_of(a, places)
    return ("-" if z < 0 else "") + pointed(places, abs(z))


def exact_text_of(a):
    return str(a.numerator) if a.denominator == 1 else f"{a.numerator}/{a.denominator}"


def literal_text_of(a):
    """The shortest decimal that is read as this number."""
    places = next(places for places in range(18) if 10**places % a.denominator == 0)
    return pointed(places, a.numerator * 10**places // a.denominator)
