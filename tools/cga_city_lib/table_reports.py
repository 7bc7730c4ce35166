"""What a script reports of its solids, as columns of a table: comments `# report NAME SYMBOL VALUE`, perhaps with `* NUMBER` behind.
They mean nothing to the program."""
import re
from collections import Counter
from fractions import Fraction
from typing import Any, Callable, Dict, List, NamedTuple, Optional, Set, Tuple

from .call import said
from .forms import Form
from .instances import symbols
from .measure import Measured
from .numerals import numeral
from .table_rows import KEYS, Key

SUMMED = ("solids", "area", "plan", "side", "volume")
TAKEN = ("lot", "symbol", "front", "box", "top", "floors", "limit", "above", "ratio", *SUMMED)  # a table's own heads
REPORT = re.compile(rf"# report (\S+) ([A-Za-z_]\w*) ({'|'.join(SUMMED)})(?: \* (\S+))?\s*", re.ASCII)
BEGUN = re.compile(r"#\s*report\s+(\S+)\s+([A-Za-z_]\w*)\s+(\S+)", re.ASCII)
HELP = f"a column is reported as `# report NAME SYMBOL VALUE`, with {', '.join(SUMMED[:-1])} or {SUMMED[-1]}, and perhaps `* NUMBER`"


class Report(NamedTuple):
    """The sum of a value over the solids of a symbol, so many times."""

    name: str
    symbol: str
    value: str
    times: Fraction


def read_report(line: str) -> Optional[Report]:
    match = REPORT.fullmatch(line)
    times = numeral(match[4] or "1") if match else None
    if not match or times is None or match[1] in TAKEN:
        return None
    return Report(match[1], match[2], match[3], Fraction(times))


def reports_in(lines: List[str], drawn: Set[str]) -> Tuple[List[Report], List[Tuple[int, str]]]:
    """The reports, and the number of each line that seems to be one and has no sum, with the reason."""
    found: List[Report] = []
    faults: List[Tuple[int, str]] = []
    for number, line in enumerate(lines, 1):
        begun = BEGUN.match(line)
        report = read_report(line) if begun else None
        if report:
            found.append(report)
            if report.symbol not in drawn:
                faults.append((number, f"nothing is drawn by `{report.symbol}`, so it adds 0"))
        elif begun and (begun[2] in drawn or begun[3] in SUMMED):
            taken = begun[1] in TAKEN
            faults.append((number, f"`{begun[1]}` is a column already: name it otherwise" if taken else HELP))
    return found, faults


def names_of(reports: List[Report]) -> List[str]:
    """The columns, each once: reports of one name are added up."""
    return list(dict.fromkeys(report.name for report in reports))


def value_of(measured: Measured, form: Form, value: str) -> Fraction:
    """What one solid adds, exactly where its scope is known."""
    if value == "solids":
        return Fraction(1)
    measure = measured.of(form)
    if value == "area":
        return form.scope.size[0] * form.scope.size[1] if form.scope else Fraction(measure.front or 0, 10**6)
    if value == "volume":
        return Fraction(measure.volume, 6 * measured.one**3)
    return Fraction(measure.plan if value == "plan" else measure.side, 2 * measured.one**2)


def reported(measured: Measured, by: str, reports: List[Report]) -> Callable[[Key], Dict[str, Fraction]]:
    """What gives the cells of a row."""
    sums: Dict[Tuple[Key, str], Fraction] = {}
    for lot, instances in measured.lots.items() if reports else ():
        for (symbol, form), number in Counter([(one.symbol, one.form) for one in instances]).items():
            for report in reports:
                if report.symbol == symbol:
                    place = KEYS[by](lot, symbol), report.name
                    more = number * report.times * value_of(measured, form, report.value)
                    sums[place] = sums.get(place, Fraction(0)) + more
    return lambda key: {name: sums.get((key, name), Fraction(0)) for name in names_of(reports)}


def reports_of(found: Any, measured: Measured, by: str) -> Tuple[List[str], Callable[[Key], Dict[str, Fraction]]]:
    """The names that the script reports, and what gives their cells; a comment that comes to nothing is told."""
    lines = found.given.text().split("\n") if found.given.is_script else []
    reports, faults = reports_in(lines, set(symbols(measured.lots)))
    for number, why in faults:
        said("table", f"{found.given.path}:{number}: {why}")
    return names_of(reports), reported(measured, by, reports)
