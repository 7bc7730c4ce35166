"""How lots begin: with the first rule's symbol, or by symbols that draw the values which each lot has for itself."""
from fractions import Fraction
from typing import Dict, List, NamedTuple, Tuple

from .context import MOST_PARAMETERS, Line
from .forms import AREAS
from .lost import Lost, whole
from .rules import Port, Rule
from .tree import Chance, Choice, Number, Text, Value
from .values import CONDITIONS, Writer

ZERO, ONE = Number(Fraction(0)), Number(Fraction(1))


def is_condition(value: Value) -> bool:
    """Whether a value is true or false."""
    sign = getattr(value, "sign", "")
    return sign in CONDITIONS


class Drawing(NamedTuple):
    """The rules of a symbol that hands on a value of an attribute to the following symbol."""

    port: Port
    symbol: str
    parameters: List[str]
    following: str
    here: Dict[str, str]

    def lines(self, value: Value, condition: str) -> List[Line]:
        """A rule for each case of a value."""
        if is_condition(value):
            value = Choice([(value, ONE), (None, ZERO)])
        if not isinstance(value, Choice):
            return [self.line(value, condition)]
        found: List[Line] = []
        for asked, inner in value.cases:
            text = "" if asked is None else self.writer().condition(asked, True)
            found += self.lines(inner, " and ".join(part for part in (condition, text) if part))
        return found

    def line(self, value: Value, condition: str) -> Line:
        """The rule of one case, with an alternative for each percentage."""
        shares = value.shares if isinstance(value, Chance) else [(None, value)]
        likely = self.port.shares([share for share, _ in shares])
        texts = [self.text(one) for _, one in shares]
        calls = [Line(self.following, [*self.parameters, text], "", []).head() for text in texts]
        told = [f"{text} {whole(one.text)}" for text, (_, one) in zip(texts, shares) if isinstance(one, Text)]
        alternatives = [(call, share) for call, share in zip(calls, likely) if share > 0]
        comments = [f"# {', '.join(told)}"] if told else []
        return Line(self.symbol, list(self.parameters), condition, alternatives, comments)

    def writer(self) -> Writer:
        return Writer(self.port.known, self.here)

    def text(self, value: Value) -> str:
        try:
            return self.writer().number(value)
        except Lost:
            return self.port.settled_text(value)


def starting(port: Port, rule: Rule, symbol: str) -> Tuple[str, List[Line]]:
    """The symbol of lots, and its rules."""
    handed = port.handed(rule.name)
    if not handed:
        return symbol, []
    first = current = port.symbols.new(f"{symbol}_lot")
    here = {"geometry.area": AREAS["ground"]}
    lines: List[Line] = []
    parameters: List[str] = []
    needed = port.carried.needed(handed)
    for at, name in enumerate(needed[:MOST_PARAMETERS]):
        value = port.known.attributes[name].value if name in port.known.attributes else ZERO
        is_used = any(name in port.carried.behind.get(other, ()) for other in needed[at + 1 :])
        drawing = Drawing(port, current, list(parameters), "", dict(here))
        if not isinstance(value, (Chance, Choice)) and not is_condition(value) and not is_used:
            here[name] = drawing.text(value)
            continue
        current = port.symbols.new(f"{symbol}_{name}")
        lines += drawing._replace(following=current).lines(value, "")
        parameters.append(port.parameter(rule.name, name))
        here[name] = parameters[-1]
    args = [here.get(name, "0") for name in handed]
    return first, [*lines, Line(current, parameters, "", [(Line(symbol, args, "", []).head(), None)])]
