"""The tokens of a line, or its first fault in reading."""
import re
from dataclasses import dataclass
from fractions import Fraction

from .fault import LineFault

MOST_DIGITS, MOST_NAME, MOST_LINE = 18, 32, 4096
RESERVED = "T S Rx Ry Rz I Subdiv Repeat Comp NIL Scope rand floor ceil and or not".split()
LETTERS = "ABCDEFGHIJKLMNOPQRSTUVWXYZabcdefghijklmnopqrstuvwxyz_"
DIGITS = "0123456789"
TWO_SIGNS = ("->", "==", "!=", "<=", ">=")
ONE_SIGNS = "()[]{},:|+-*/.=<>"


@dataclass(frozen=True)
class Token:
    """A number, a relative, a word, a text or a sign; what it says, and the place of its first byte, from 1."""

    kind: str
    said: object
    place: int


def is_long(line):
    return len(line) > MOST_LINE


def tokens_of(line):
    """All tokens; spaces and tabs separate them, and a # begins a comment."""
    tokens, at = [], 0
    while at < len(line) and line[at] != "#":
        if line[at] in " \t":
            at += 1
            continue
        token, at = token_at(line, at)
        tokens.append(token)
    return tokens


def token_at(line, at):
    """The token that begins here, and where it ends."""
    if line[at] in DIGITS:
        return number_at(line, at)
    if line[at] in LETTERS:
        return word_at(line, at)
    if line[at] == '"':
        return text_at(line, at)
    for sign in (line[at : at + 2], line[at]):
        if sign in TWO_SIGNS or len(sign) == 1 and sign in ONE_SIGNS:
            return Token("sign", sign, at + 1), at + len(sign)
    raise LineFault("BadByte", at + 1)


def number_at(line, at):
    """Digits, with a point and digits or without; directly behind them an r, and nothing of a name, makes it relative."""
    digits = re.compile(r"[0-9]+(?:\.[0-9]+)?").match(line, at).group()
    end = at + len(digits)
    is_relative = line[end : end + 1] == "r" and line[end + 1 : end + 2] not in [*LETTERS, *DIGITS]
    is_bad = line[end : end + 1] in [*LETTERS] and not is_relative
    if is_bad or len(digits.replace(".", "")) > MOST_DIGITS:
        raise LineFault("BadNumber", at + 1)
    return Token("relative" if is_relative else "number", Fraction(digits), at + 1), end + is_relative


def name_end(line, at):
    """Behind the last byte that goes on a name."""
    while at < len(line) and line[at] in LETTERS + DIGITS:
        at += 1
    return at


def word_at(line, at):
    end = name_end(line, at)
    if end - at > MOST_NAME:
        raise LineFault("LongName", at + 1)
    return Token("word", line[at:end], at + 1), end


def text_at(line, at):
    """A name in quotes."""
    first = at + 1
    end = name_end(line, first) if line[first : first + 1] in [*LETTERS] else first
    if end == len(line):
        raise LineFault("OpenText", at + 1)
    if line[end] != '"' or end == first:
        raise LineFault("BadByte", end + 1)
    if end - first > MOST_NAME:
        raise LineFault("LongName", first + 1)
    return Token("text", line[first:end], at + 1), end + 1
