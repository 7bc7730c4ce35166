"""Values and conditions as a script writes them, and what of them is known before any run."""
import math
from fractions import Fraction
from typing import Dict, List, NamedTuple, Optional, Union

from ..numerals import numeral
from .lost import Lost
from .names import Names
from .tree import Attribute, Binary, Call, Chance, Choice, Function, Name, Number, Text, Unary, Value

Settled = Union[Fraction, str, None]
SUM, PRODUCT, ATOM = 1, 2, 3
CONDITIONS = ("==", "!=", "<", "<=", ">", ">=", "&&", "||", "!")
STEPS = 100  # of a rand: one of 101 numbers
SIZES = {"scope.sx": "Scope.sx", "scope.sy": "Scope.sy", "scope.sz": "Scope.sz"}
QUERIES = {"touches": "!=", "overlaps": "!=", "inside": "=="}
FUNCTIONS = {
    **{name: getattr(math, name) for name in ("sqrt", "exp", "log10")},
    **{name: lambda x, f=getattr(math, name): f(math.radians(x)) for name in ("sin", "cos", "tan")},
    **{f"a{name}": lambda x, f=getattr(math, f"a{name}"): math.degrees(f(x)) for name in ("sin", "cos", "tan")},
}
OF_LOTS = {"geometry.isRectangular": 1, "geometry.isConvex": 1, "geometry.isConcave": 0, "geometry.isPlanar": 1}
EXACT = {"abs": abs, "min": min, "max": max, "floor": math.floor, "ceil": math.ceil}


class Written(NamedTuple):
    """A value's text, and how firmly it holds together."""

    text: str
    level: int

    def at(self, level: int) -> str:
        return self.text if self.level >= level else f"({self.text})"


def number_text(number: Fraction) -> Written:
    """A decimal if it ends, else a quotient."""
    ten = number.denominator
    for prime in (2, 5):
        while ten % prime == 0:
            ten //= prime
    text = numeral(f"{number.numerator}") if number.denominator == 1 else None
    if text is None and ten == 1:
        text = numeral(f"{float(number):.12f}")
    if text is not None and Fraction(text) == number:
        return Written(text, ATOM)
    near = number.limit_denominator(10**8)
    return Written(f"{near.numerator}/{near.denominator}" if near.denominator > 1 else str(near.numerator), PRODUCT)


def six(number: float) -> Fraction:
    """The number with six decimals."""
    return Fraction(round(number * 10**6), 10**6)


def replaced(value: Value, names: Dict[str, Value]) -> Value:
    """The value with other values in the place of names."""
    if isinstance(value, Name):
        return names.get(value.name, value)
    if isinstance(value, Call):
        return Call(value.name, [replaced(arg, names) for arg in value.args])
    if isinstance(value, Unary):
        return Unary(value.sign, replaced(value.value, names))
    if isinstance(value, Binary):
        return Binary(value.sign, replaced(value.left, names), replaced(value.right, names))
    if isinstance(value, Choice):
        return Choice([(c and replaced(c, names), replaced(v, names)) for c, v in value.cases])
    return value


class Known:
    """The attributes and functions of a file."""

    def __init__(self, attributes: Dict[str, Attribute], functions: Dict[str, Function]) -> None:
        self.attributes, self.functions = attributes, functions
        self.names = Names()
        self.used: Dict[str, Fraction] = {}  # the attributes that the script declares
        self.texts: List[str] = []  # each text that is compared, which has its place as its number

    def code(self, text: str) -> Fraction:
        """The number that stands for a text."""
        if text not in self.texts:
            self.texts.append(text)
        return Fraction(self.texts.index(text) + 1)

    def settled(self, value: Value, reads: bool = False) -> Settled:
        """The value, if it follows from constants, and where `reads` is told from attributes as they stand in the file."""
        if isinstance(value, Number):
            return value.value
        if isinstance(value, Text):
            return value.text
        if isinstance(value, Name):
            return self.settled_name(value.name, reads)
        if isinstance(value, Call):
            return self.settled_call(value, reads)
        if isinstance(value, Unary):
            inner = self.settled(value.value, reads)
            signs = {"-": lambda x: -x, "!": lambda x: Fraction(x == 0)}
            return signs[value.sign](inner) if isinstance(inner, Fraction) and value.sign in signs else None
        if isinstance(value, Binary):
            return joined(value.sign, self.settled(value.left, reads), self.settled(value.right, reads))
        if isinstance(value, Chance):
            return self.settled(value.shares[0][1], reads) if reads else None
        return self.settled_choice(value, reads)

    def settled_name(self, name: str, reads: bool) -> Settled:
        if name in ("true", "false"):
            return Fraction(name == "true")
        if name in self.functions:
            return self.settled(self.functions[name].value, reads)
        attribute = self.attributes.get(name)
        if attribute is None or not (reads or attribute.is_constant):
            return None
        return self.settled(attribute.value, reads)

    def settled_call(self, call: Call, reads: bool) -> Settled:
        if call.name in self.functions:
            return self.settled(self.called(call), reads)
        if call.name in OF_LOTS:
            return Fraction(OF_LOTS[call.name])
        args = [self.settled(arg, reads) for arg in call.args]
        if not args or not all(isinstance(arg, Fraction) for arg in args):
            return None
        if call.name in EXACT:
            return Fraction(EXACT[call.name](*args))
        if call.name == "rint":
            return Fraction(math.floor(args[0] + Fraction(1, 2)))
        return six(FUNCTIONS[call.name](float(args[0]))) if call.name in FUNCTIONS and len(args) == 1 else None

    def settled_choice(self, choice: Choice, reads: bool) -> Settled:
        for condition, value in choice.cases:
            holds = Fraction(1) if condition is None else self.settled(condition, reads)
            if not isinstance(holds, Fraction):
                return None
            if holds:
                return self.settled(value, reads)
        return None

    def called(self, call: Call) -> Value:
        """What a function of the file gives for these arguments."""
        function = self.functions[call.name]
        return replaced(function.value, dict(zip(function.parameters, call.args)))


def joined(sign: str, left: Settled, right: Settled) -> Settled:
    """The two values joined by a sign, if both are known."""
    if left is None or right is None:
        return None
    if sign in ("==", "!="):
        return Fraction((left == right) == (sign == "=="))
    if sign == "+" and (isinstance(left, str) or isinstance(right, str)):
        return f"{left}{right}"
    if isinstance(left, str) or isinstance(right, str) or sign in ("/", "%") and right == 0:
        return None
    return SIGNS[sign](left, right)


SIGNS = {
    "+": lambda x, y: x + y,
    "-": lambda x, y: x - y,
    "*": lambda x, y: x * y,
    "/": lambda x, y: x / y,
    "%": lambda x, y: x % y,
    "<": lambda x, y: Fraction(x < y),
    "<=": lambda x, y: Fraction(x <= y),
    ">": lambda x, y: Fraction(x > y),
    ">=": lambda x, y: Fraction(x >= y),
    "&&": lambda x, y: Fraction(bool(x and y)),
    "||": lambda x, y: Fraction(bool(x or y)),
}


class Writer:
    """Writes values; `here` has the texts of parameters and of parts of the shape, as `split.index`."""

    def __init__(self, known: Known, here: Dict[str, str]) -> None:
        self.known, self.here = known, here

    def number(self, value: Value) -> str:
        return self.written(value).text

    def written(self, value: Value) -> Written:
        settled = None if self.is_named(value) else self.known.settled(value)
        if settled is not None:
            return number_text(self.known.code(settled) if isinstance(settled, str) else settled)
        if isinstance(value, Name):
            return self.name(value.name)
        if isinstance(value, Call):
            return self.call(value)
        if isinstance(value, Unary) and value.sign == "-":
            return Written(f"-{self.written(value.value).at(ATOM)}", PRODUCT)
        if isinstance(value, Binary) and value.sign in "+-*/%":
            return self.binary(value)
        raise Lost("a value of a script is a number, without cases and percentages")

    def is_named(self, value: Value) -> bool:
        """Whether it is a parameter, or a constant that keeps its name."""
        return isinstance(value, Name) and (value.name in self.here or value.name in self.known.attributes)

    def name(self, name: str) -> Written:
        if name in self.here:
            return Written(self.here[name], ATOM)
        if name in SIZES:
            return Written(SIZES[name], ATOM)
        if name in self.known.functions:
            return self.written(self.known.functions[name].value)
        attribute = self.known.attributes.get(name)
        if attribute is None:
            raise Lost(f"no value here is called {name}")
        plain = self.known.settled(attribute.value)
        if plain is None:
            return self.derived(attribute)
        self.known.used[name] = self.known.code(plain) if isinstance(plain, str) else plain
        return Written(self.known.names.of(name), ATOM)

    def derived(self, attribute: Attribute) -> Written:
        """An attribute that follows from others is written out, or stands for the value that it has in the file."""
        try:
            return self.written(attribute.value)
        except Lost as fault:
            value = self.known.settled(attribute.value, True)
            if value is None:
                raise Lost(f"{attribute.name}: {fault}") from None
            self.known.used[attribute.name] = self.known.code(value) if isinstance(value, str) else value
            return Written(self.known.names.of(attribute.name), ATOM)

    def call(self, call: Call) -> Written:
        if call.name in self.here:
            return Written(self.here[call.name], ATOM)
        if call.name in self.known.functions:
            return self.written(self.known.called(call))
        if call.name == "rand" and len(call.args) <= 2:
            ends = [Number(Fraction(0)), *(call.args[-2:] or [Number(Fraction(1))])]
            low, high = (self.number(arg) for arg in ends[-2:])
            return Written(f"rand({low}, {high}, {STEPS})", ATOM)
        if call.name in ("floor", "ceil") and len(call.args) == 1:
            return Written(f"{call.name}({self.number(call.args[0])})", ATOM)
        if call.name == "rint" and len(call.args) == 1:
            return Written(f"floor({self.written(call.args[0]).at(SUM)} + 0.5)", ATOM)
        raise Lost(f"a script has no function {call.name} of what changes: write its value")

    def binary(self, value: Binary) -> Written:
        left, right = self.written(value.left), self.written(value.right)
        if value.sign == "%":
            whole = f"floor({left.at(PRODUCT)} / {right.at(ATOM)})"
            return Written(f"{left.at(SUM)} - {right.at(PRODUCT)} * {whole}", SUM)
        level = SUM if value.sign in "+-" else PRODUCT
        behind = level if value.sign in "+*" else level + 1
        return Written(f"{left.at(level)} {value.sign} {right.at(behind)}", level)

    def condition(self, value: Value, is_inner: bool = False) -> str:
        """The condition's text, in square brackets where it stands in another and joins by `or`."""
        settled = None if isinstance(value, Name) else self.known.settled(value)
        if isinstance(settled, Fraction):
            return "1 == 1" if settled else "1 == 0"
        if isinstance(value, Binary) and value.sign in ("&&", "||"):
            word = "and" if value.sign == "&&" else "or"
            text = f"{self.condition(value.left, word == 'and')} {word} {self.condition(value.right, word == 'and')}"
            return f"[ {text} ]" if is_inner and word == "or" else text
        if isinstance(value, Unary) and value.sign == "!":
            return f"not [ {self.condition(value.value)} ]"
        if isinstance(value, Binary) and value.sign in ("==", "!=", "<", "<=", ">", ">="):
            return f"{self.number(value.left)} {value.sign} {self.number(value.right)}"
        name = getattr(value, "name", "")
        if name in QUERIES:
            answer = "full" if name == "inside" else "none"
            return f'Scope.occ("noparent") {QUERIES[name]} "{answer}"'
        return f"{self.number(value)} == 1"

    def named_text(self, value: Value) -> Optional[str]:
        """The text that a value is, as the name of a file or a colour; none if it is no text."""
        found = self.known.settled(value, True)
        return found if isinstance(found, str) else None
