"""What a CGA file says. A line is that of the file, from 1."""
from dataclasses import dataclass, field
from fractions import Fraction
from typing import List, NamedTuple, Optional, Tuple, Union


class Number(NamedTuple):
    value: Fraction


class Text(NamedTuple):
    text: str


class Name(NamedTuple):
    """An attribute, a parameter, or a part of the shape, as `scope.sx`."""

    name: str


class Call(NamedTuple):
    name: str
    args: List["Value"]


class Unary(NamedTuple):
    """`-`, `!`, `'` for a share of the scope, `~` for a size about so long."""

    sign: str
    value: "Value"


class Binary(NamedTuple):
    sign: str
    left: "Value"
    right: "Value"


class Choice(NamedTuple):
    """`case C : x .. else : y`: values by conditions, of which the last has none."""

    cases: List[Tuple[Optional["Value"], "Value"]]


class Chance(NamedTuple):
    """`50% : x .. else : y`: values by percentages, of which the last may have none."""

    shares: List[Tuple[Optional["Value"], "Value"]]


Value = Union[Number, Text, Name, Call, Unary, Binary, Choice, Chance]


@dataclass
class Symbol:
    """A shape of that symbol, or a leaf."""

    name: str
    args: List[Value]
    line: int


@dataclass
class Operation:
    name: str
    args: List[Value]
    line: int
    written: str = ""


@dataclass
class Bracket:
    """`[ .. ]`"""

    items: List["Item"]
    line: int


@dataclass
class Nothing:
    line: int


@dataclass
class Part:
    """A size of a split and its body, or parts that are repeated."""

    size: Optional[Value]
    body: Optional["Body"]
    repeated: List["Part"]
    line: int


@dataclass
class Split:
    axis: str
    parts: List[Part]
    line: int
    written: str = ""


class Selected(NamedTuple):
    """A selector of an operation such as `comp` or `setback`, and its body."""

    selector: str
    body: "Body"
    is_joined: bool


@dataclass
class Taken:
    """An operation with bodies for what it makes: `comp(f) { side : A | top : B }`."""

    name: str
    args: List[Value]
    selected: List[Selected]
    line: int
    written: str = ""


Item = Union[Symbol, Operation, Bracket, Nothing, Split, Taken]


@dataclass
class Cases:
    cases: List[Tuple[Optional[Value], "Body"]]
    line: int


@dataclass
class Chances:
    shares: List[Tuple[Optional[Value], "Body"]]
    line: int


@dataclass
class Items:
    items: List[Item]
    line: int


Body = Union[Cases, Chances, Items]


@dataclass
class Attribute:
    """`attr` or `const`, with the names of its annotations."""

    name: str
    value: Value
    is_constant: bool
    line: int
    written: str
    annotations: List[str] = field(default_factory=list)


@dataclass
class Function:
    name: str
    parameters: List[str]
    value: Value
    line: int


@dataclass
class Rule:
    name: str
    parameters: List[str]
    body: Body
    line: int
    annotations: List[str] = field(default_factory=list)
    written: str = ""


@dataclass
class Unread:
    """A declaration that isn't taken over, with its reason; nothing where the reason goes without saying. Of an import the
    name and the file."""

    written: str
    reason: str
    line: int
    imports: Tuple[str, ...] = ()


Declaration = Union[Attribute, Function, Rule, Unread]
