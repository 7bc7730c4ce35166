"""Values and conditions of a CGA file, read from its tokens."""
import re
from decimal import Decimal, InvalidOperation
from fractions import Fraction
from typing import Callable, List, Optional, Tuple

from .tokens import Token
from .tree import Binary, Call, Chance, Choice, Name, Number, Text, Unary, Value

METRES = {"": 1, "m": 1, "mm": Fraction(1, 1000), "cm": Fraction(1, 100), "km": 1000}
METRES.update({"ft": Fraction(3048, 10000), "in": Fraction(254, 10000)})
LEVELS = [["||"], ["&&"], ["==", "!=", "<", "<=", ">", ">="], ["+", "-"], ["*", "/", "%"]]
SPACED = {"-->", "|", ":", "&&", "||", "==", "!=", "<", ">", "<=", ">=", "{", "}", "[", "]", "=", "+", "*", "/"}


FARTHEST = 308  # digits before and after the point, which floats have


class Unreadable(Exception):
    """What stands at a token can't stand there."""


def number_of(text: str) -> Fraction:
    """The number, in metres where a unit stands behind it."""
    digits, unit = re.fullmatch(r"(.*?)(mm|cm|km|m|ft|in|)", text).groups()
    try:
        number = Decimal(digits)
    except InvalidOperation:
        number = Decimal("nan")
    if not number.is_finite() or abs(number.adjusted()) > FARTHEST:
        raise Unreadable(f"`{text}` is out of range")
    return Fraction(number) * METRES[unit]


def written(tokens: List[Token]) -> str:
    """The text of some tokens in one line."""
    text = ""
    for token in tokens:
        is_close = text[-1:] in ("", "(", "[", "'", "~", "@", "!", "-") or token.text in (")", ",", "(", ".", "%", "]")
        text += ("" if is_close and token.text not in SPACED else " ") + token.text
    return text.strip()


class Values:
    """Reads from a place on in the tokens of a declaration."""

    def __init__(self, tokens: List[Token]) -> None:
        self.tokens, self.at = tokens, 0

    def next(self, ahead: int = 0) -> str:
        """The text of the token that comes, of which a text begins with its quote; nothing at the end."""
        return self.tokens[self.at + ahead].text if self.at + ahead < len(self.tokens) else ""

    def kind(self, ahead: int = 0) -> str:
        return self.tokens[self.at + ahead].kind if self.at + ahead < len(self.tokens) else ""

    def line(self) -> int:
        return self.tokens[min(self.at, len(self.tokens) - 1)].line

    def take(self) -> Token:
        if self.at >= len(self.tokens):
            raise Unreadable("it ends too early")
        self.at += 1
        return self.tokens[self.at - 1]

    def need(self, text: str) -> Token:
        if self.next() != text:
            raise Unreadable(f"`{self.next() or 'the end'}` stands in the place of `{text}`")
        return self.take()

    def takes(self, text: str) -> bool:
        if self.next() != text:
            return False
        self.at += 1
        return True

    def value(self, level: int = 0) -> Value:
        if level == 0 and self.next() == "case":
            return self.choice()
        if level == 0 and self.next() in ("'", "~"):
            return Unary(self.take().text, self.value())
        if level == len(LEVELS):
            return self.unary()
        left = self.value(level + 1)
        while self.next() in LEVELS[level] and not self.is_percentage():
            sign = self.take().text
            left = Binary(sign, left, self.value(level + 1))
        return left

    def is_percentage(self) -> bool:
        return self.next() == "%" and self.next(1) == ":"

    def choice(self) -> Choice:
        cases: List[Tuple[Optional[Value], Value]] = []
        while self.takes("case"):
            condition = self.value(0)
            self.need(":")
            cases.append((condition, self.chance_or_value()))
        self.need("else")
        self.need(":")
        return Choice([*cases, (None, self.chance_or_value())])

    def chance_or_value(self) -> Value:
        """A value, or values by percentages."""
        first = self.value()
        if not self.is_percentage():
            return first
        shares: List[Tuple[Optional[Value], Value]] = []
        while self.is_percentage():
            self.at += 2
            shares.append((first, self.value()))
            if self.takes("else"):
                self.need(":")
                return Chance([*shares, (None, self.value())])
            if self.at < len(self.tokens):
                first = self.value()
        return Chance(shares)

    def unary(self) -> Value:
        if self.next() in ("-", "!", "'", "~"):
            return Unary(self.take().text, self.unary())
        token = self.take()
        if token.kind == "number":
            return Number(number_of(token.text))
        if token.kind == "text":
            return Text(token.text[1:-1])
        if token.text == "(":
            value = self.value()
            self.need(")")
            return value
        if token.kind != "word":
            raise Unreadable(f"`{token.text}` stands in the place of a value")
        return Call(token.text, self.arguments()) if self.next() == "(" else Name(token.text)

    def arguments(self) -> List[Value]:
        """What stands in round brackets; nothing where none open."""
        return self.listed(self.value) if self.next() == "(" else []

    def listed(self, read: Callable[[], Value]) -> List[Value]:
        self.need("(")
        found: List[Value] = []
        while not self.takes(")"):
            found.append(read())
            if self.next() != ")":
                self.need(",")
        return found
