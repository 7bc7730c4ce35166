"""Reading the tokens of a line one after the other, up to the first with which they begin no member of a form."""
from .fault import LineFault
from .lexer import RESERVED, is_long, tokens_of

MOST_OPEN = 32
END = ("end", None)


class Unexpected(Exception):
    """The next token, or the end, goes on no member of the form."""


class Reader:
    def __init__(self, tokens):
        self.tokens = tokens
        self.at = 0
        # how many rand a rule had so far
        self.rands = 0

    def next(self):
        """The kind of the next token, and what it says."""
        if self.at == len(self.tokens):
            return END
        return self.tokens[self.at].kind, self.tokens[self.at].said

    def take(self, test, kind):
        """What the next token says, where it is of this kind and passes the test."""
        found, said = self.next()
        if found != kind or not test(said):
            raise Unexpected
        self.at += 1
        return said

    def is_sign(self, *signs):
        kind, said = self.next()
        return kind == "sign" and said in signs

    def is_word(self, *words):
        kind, said = self.next()
        return kind == "word" and said in words

    def sign(self, *signs):
        return self.take(lambda said: said in signs, "sign")

    def word(self, *words):
        return self.take(lambda said: said in words, "word")

    def text(self, *texts):
        return self.take(lambda said: said in texts, "text")

    def name(self):
        return self.take(lambda said: said not in RESERVED, "word")

    def number(self):
        return self.take(lambda said: True, "number")

    def whole(self, least, most):
        return int(self.take(lambda said: said.denominator == 1 and least <= said <= most, "number"))

    def has_sign(self, sign):
        """Takes the sign where it is next."""
        if self.is_sign(sign):
            self.at += 1
            return True
        return False

    def is_at_end(self):
        return self.at == len(self.tokens)

    def listed(self, read, separator, most=None):
        """One member or more, with a separator between two of them."""
        members = [read(self)]
        while len(members) != most and self.has_sign(separator):
            members.append(read(self))
        return tuple(members)


def too_nested(tokens):
    """The index of the first bracket with which more are open than may be; None where there is none."""
    opened = 0
    for at, token in enumerate(tokens):
        if token.kind == "sign":
            opened += (token.said in "([{") - (token.said in ")]}")
        if opened > MOST_OPEN:
            return at
    return None


def form_told(read, line, tokens):
    """What the tokens are read as, to their end."""
    nested = too_nested(tokens)
    reader = Reader(tokens if nested is None else tokens[: nested + 1])
    try:
        said = read(reader)
        if not reader.is_at_end():
            raise Unexpected
        return said
    except Unexpected:
        if not reader.is_at_end():
            raise LineFault("Unexpected", reader.tokens[reader.at].place) from None
        if nested is not None:
            raise LineFault("TooNested", tokens[nested].place) from None
        raise LineFault("Unexpected", len(line) + 1) from None


def line_told(read, line):
    """What a line is read as, or its first fault."""
    if is_long(line):
        raise LineFault("LineTooLong")
    return form_told(read, line, tokens_of(line))


def line_found(read, line):
    """The same of a line of a block, which says nothing where it has no tokens."""
    if is_long(line):
        raise LineFault("LineTooLong")
    tokens = tokens_of(line)
    return form_told(read, line, tokens) if tokens else None
