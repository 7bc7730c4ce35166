"""What the walk over a successor knows of its rule, and the lines of a script that it writes beside."""
from fractions import Fraction
from typing import TYPE_CHECKING, Dict, List, NamedTuple, Optional, Tuple

from .forms import AREAS, State
from .tree import Item
from .values import Writer

if TYPE_CHECKING:
    from .rules import Port

MOST_PARAMETERS = 4


class Line(NamedTuple):
    """A rule of a script, without its number."""

    symbol: str
    parameters: List[str]
    condition: str
    alternatives: List[Tuple[str, Optional[Fraction]]]
    comments: List[str] = []

    def head(self) -> str:
        return self.symbol + (f"({', '.join(self.parameters)})" if self.parameters else "")


class Context:
    """A rule of the file as one symbol of the script: its parameters, and the texts of values in it. `lines` are rules of
    further symbols, which come behind its own."""

    def __init__(self, port: "Port", rule: str, symbol: str, parameters: List[str], here: Dict[str, str], state: State):
        self.port, self.rule, self.symbol, self.parameters = port, rule, symbol, parameters
        self.here, self.state = here, state
        self.lines: List[Line] = []
        self.whole: Optional[List[Item]] = None  # the items of the case that is written, where it is one sequence
        self.narrow: List[Tuple[str, str]] = []  # conditions and bodies for shapes that are too narrow for its split

    def writer(self, here: Dict[str, str], form: str) -> Writer:
        """What writes values where the shape has a form; a flat one has an area."""
        area = {"geometry.area": AREAS[form]} if form in AREAS else {}
        return Writer(self.port.known, {**here, **area})

    def further(self, ending: str) -> str:
        """A free symbol beside the rule's."""
        return self.port.symbols.new(f"{self.symbol}_{ending}")

    def called(self, symbol: str) -> str:
        """The symbol with the rule's parameters as arguments."""
        return Line(symbol, self.parameters, "", []).head()

    def lifted(self, ending: str, rules: List[Tuple[str, str]]) -> str:
        """A further symbol with these conditions and bodies, as it is called."""
        symbol = self.further(ending)
        self.lines += [Line(symbol, self.parameters, condition, [(text, None)]) for condition, text in rules]
        return self.called(symbol)
