"""Numbers as a script writes them: decimals without an exponent, or a quotient of whole numbers."""
import re
from decimal import Decimal, InvalidOperation
from fractions import Fraction

DIGITS = 18
EXPONENT = re.compile(r"(?<!\w)(\d+\.?\d*e[-+]?\d+)(?=r?(?!\w))", re.ASCII | re.IGNORECASE)
SPELT = re.compile(r"[-+]?(\d+\.?\d*|\.\d+)(e[-+]?\d+)?|-?\d+/\d+", re.ASCII | re.IGNORECASE)


def numeral(value):
    """The text of a number, exactly; nothing where it is none, or has more digits than a script takes."""
    if isinstance(value, bool) or not isinstance(value, (int, Decimal, str)):
        return None
    text = str(value).strip() if not isinstance(value, int) or abs(value) < 10**DIGITS else ""
    if re.fullmatch(r"-?\d{1,18}/0*[1-9]\d{0,17}", text, re.ASCII):
        return text
    return decimal(text)


def is_too_long(text):
    """Whether it spells a number, and one with more digits than a script takes, those of its exponent written out."""
    is_number = SPELT.fullmatch(text) is not None and numeral(text) is None
    return is_number and ("/" not in text or sum(map(str.isdigit, text)) > DIGITS)


def on_exponent(text: str) -> str:
    """What is said of the first number with an exponent, where none may have one; nothing where none has."""
    found = EXPONENT.search(text)
    written = decimal(found[1]) if found else None
    more = f": write {written}" if written else f", and a number has {DIGITS} digits at most"
    return f"`{found[1]}` has an exponent{more}" if found else ""


def decimal(text):
    try:
        number = Decimal(text) if text.isascii() and "_" not in text else None
    except InvalidOperation:
        number = None
    if number is not None and number.is_zero():
        return "0"
    if number is None or not number.is_finite() or not -DIGITS < number.adjusted() < DIGITS:
        return None
    written = plain(number)
    return written if sum(map(str.isdigit, written)) <= DIGITS else None


def plain(number):
    """A decimal without an exponent and without zeros that say nothing."""
    text = f"{number:f}"
    text = text.rstrip("0").rstrip(".") if "." in text else text
    return "0" if text == "-0" else text


def on_grid(number, places):
    """The text of a whole number of steps of a grid, of which 10 to the number of places make 1."""
    return plain(Decimal(number).scaleb(-places))


def fixed(upper: int, lower: int, places: int) -> str:
    """A fraction with so many decimals, halves away from zero."""
    steps = (2 * abs(upper) * 10**places + lower) // (2 * lower)
    whole, rest = divmod(steps, 10**places)
    return f"{'-' * (upper < 0 and steps > 0)}{whole}" + (f".{rest:0{places}d}" if places else "")


def rounded(number: Fraction, places: int) -> str:
    """The same without zeros that say nothing."""
    text = fixed(number.numerator, number.denominator, places)
    return text.rstrip("0").rstrip(".") if places else text
