"""How commands and lines of blocks are read. Each is a word and what belongs to it."""
from .form import Unexpected
from .parser import rule
from .rule import Attribute
from .sources import BREADTH, DEPTH, Lot

LAST_PRIORITY, LAST_SEED = 65535, 10**18 - 1


def prio(r):
    return r.whole(0, LAST_PRIORITY)


def value(r):
    """A number; or two whole ones with a stroke between them, of which the second isn't 0. A minus may come before."""
    minus = r.has_sign("-")
    number = r.number()
    if number.denominator == 1 and r.has_sign("/"):
        number = number / r.take(lambda said: said.denominator == 1 and said != 0, "number")
    return -number if minus else number


def lot(r):
    r.word("lot")
    name = r.name()
    seed = r.whole(0, LAST_SEED)
    x, z, width, depth = value(r), value(r), value(r), value(r)
    return Lot(name, seed, x, z, width, depth, r.name())


def attribute(r):
    r.word("attr")
    name = r.name()
    r.sign("=")
    return Attribute(name, value(r))


def order(r):
    r.word("order")
    return r.word(BREADTH, DEPTH)


def name_or_none(r):
    return None if r.is_at_end() else r.name()


def put(r):
    r.word("put")
    return prio(r), rule(r)


def drop(r):
    r.word("drop")
    return r.whole(1, 999999)


def priority(r):
    r.word("priority")
    return r.name(), prio(r)


def alone(word):
    """A command that is one word."""
    return lambda r: r.word(word) and None


def with_name(word):
    def read(r):
        r.word(word)
        return r.name()

    return read


def with_name_or_none(word):
    def read(r):
        r.word(word)
        return name_or_none(r)

    return read


def dress(r):
    r.word("dress")
    return r.name(), r.name()


VERSION_1 = {
    "put": put,
    "drop": drop,
    "attr": attribute,
    "priority": priority,
    "lot": lot,
    "unlot": with_name("unlot"),
    "print": with_name_or_none("print"),
}
VERSION_1.update({word: alone(word) for word in ("rules", "faults", "grammar", "stats", "quiet")})
VERSION_2 = {
    **VERSION_1,
    "order": order,
    "asset": with_name("asset"),
    "dress": dress,
    "undress": with_name("undress"),
    "model": with_name_or_none("model"),
}
VERSION_2.update({word: alone(word) for word in ("city", "dump", "bill", "undo", "redo", "trace", "judge")})
COMMANDS = {1: VERSION_1, 2: VERSION_2}


def by_first_word(forms, otherwise):
    """By the word that comes first, if it is one of the forms'."""

    def read(r):
        kind, said = r.next()
        if kind == "word" and said in forms:
            return said, forms[said](r)
        return otherwise(r)

    return read


def no_form(r):
    raise Unexpected


def blank_or_none(r):
    """A line without tokens asks for nothing."""
    return ("blank", None) if r.is_at_end() else no_form(r)


def command(version):
    return by_first_word(COMMANDS[version], blank_or_none)


# ---- lines of blocks


def section(r):
    r.word("PRIORITY")
    number = prio(r)
    r.sign(":")
    return number


BLOCK = {"attr": attribute, "PRIORITY": section, "end": alone("end")}
CITY = {**BLOCK, "order": order, "lot": lot}


def rule_line(r):
    return "rule", rule(r)


block_line = by_first_word(BLOCK, rule_line)
city_line = by_first_word(CITY, rule_line)
