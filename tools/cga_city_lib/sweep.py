"""The town of a script at each of some values of an attribute, by one running program."""
import re
from collections import Counter
from fractions import Fraction
from typing import Dict, Iterator, List, NamedTuple, Tuple

from .call import Refused, WrongValue
from .instances import Lots
from .kept_instances import KeptInstances
from .live import Live
from .number_words import check_digits
from .numerals import numeral
from .pipe import Ended
from .replies import counts_of, is_refused
from .strangers_text import told
from .told_town import Script

MOST = 100  # values of a sweep
FORM = "NAME=LOW..HIGH/NUMBER or NAME=VALUE,VALUE,.., such as storey=2.6..4/8 or storey=3,3.5,4"


class Values(NamedTuple):
    name: str
    values: List[Fraction]


def values_word(word: str) -> Values:
    """An attribute and its values: some that are said, or a number of them from a low one to a high one."""
    name, _, rest = word.partition("=")
    texts, found = rest.split(","), re.fullmatch(r"(.+?)\.\.(.+)/(\d+)", rest)
    if found:
        texts = [found.group(1), found.group(2)]
    check_digits(word, *texts)
    numbers = [Fraction(text) for text in texts if numeral(text) is not None]
    if not re.fullmatch(r"[A-Za-z_]\w*", name, re.ASCII) or len(numbers) < len(texts):
        raise WrongValue(f"`{told(word)}` isn't {FORM}")
    if found:
        number = int(found.group(3))
        if not 2 <= number <= MOST or numbers[0] >= numbers[1]:
            raise WrongValue(f"`{told(word)}` has to go upwards in 2 to {MOST} values")
        step = (numbers[1] - numbers[0]) / (number - 1)
        numbers = [numbers[0] + step * at for at in range(number)]
    return Values(name, numbers)


class Step(NamedTuple):
    """A town, its counts, and why the value was refused, where it was."""

    value: Fraction
    lots: Lots
    stats: Dict[str, int]
    refused: str = ""


class Session:
    """A running program that tells changes, and the instances that it told."""

    def __init__(self, program: str, script: Script) -> None:
        self.kept, self.script, self.changes = (
            KeptInstances(),
            script,
            Counter(),
        )  # type: KeptInstances, Script, Counter[bytes]
        self.live = Live(program, self.change)
        self.answers = self.ask([*script.lines, "stats"], len(script.found) + 1)[:-1]
        self.lots = list(script.standing(self.answers).lots)
        self.take()

    def change(self, gone: List[bytes], come: List[bytes]) -> None:
        self.changes.subtract(gone)
        self.changes.update(come)

    def take(self) -> None:
        """Takes what changed since the last call."""
        self.kept.take(self.changes)
        self.changes = Counter()

    def ask(self, lines: List[str], number: int) -> List[List[str]]:
        try:
            return self.live.ask(lines, number)
        except Ended as fault:
            raise Refused(f"{self.script.path}: there is no answer: {fault}") from None

    def check(self, name: str) -> None:
        names = list(self.script.standing(self.answers).attributes)
        if name not in names:
            known = f"the attributes are {', '.join(names)}" if names else "the script has none"
            raise Refused(f"{self.script.path}: no attribute `{name}` is there: {known}")

    def steps(self, values: Values) -> Iterator[Step]:
        """The town at each value; at one that is refused it stays as it was before."""
        for value in values.values:
            reply, stats = self.ask([f"attr {values.name} = {value}", "stats"], 2)
            self.take()
            refused = reply[0][len("# refused ") :] if is_refused(reply) else ""
            yield Step(value, {} if refused else self.kept.in_order(self.lots), counts_of(stats), refused)


def box_around(boxes: List[Tuple[List[float], List[float]]]) -> List[Tuple[float, float, float]]:
    """The corners of the box around some boxes."""
    low, high = [min(axis) for axis in zip(*(box[0] for box in boxes))], [
        max(axis) for axis in zip(*(box[1] for box in boxes))
    ]
    return [(x, y, z) for x in (low[0], high[0]) for y in (low[1], high[1]) for z in (low[2], high[2])]
