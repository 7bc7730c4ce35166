"""The last `bill` in what a run printed, beside its town."""
from collections import namedtuple
from fractions import Fraction

from .call import Refused
from .replies import lines_with

Entry = namedtuple("Entry", "number front box unmeasured")


def read_bill(path, text):
    """The entries by symbol, or nothing where no bill is in the text of that file."""
    bill = None
    for line in lines_with("# bill ", text):
        words = line.split()
        bill = {} if len(words) == 3 else bill
        if len(words) == 7 and bill is not None:
            bill[words[2]] = entry(words, path)
    return bill


def entry(words, path):
    try:
        return Entry(int(words[3]), Fraction(words[4]), Fraction(words[5]), int(words[6]))
    except (ValueError, ZeroDivisionError):
        raise Refused(f"{path}: `{' '.join(words)[:60]}` isn't a line of a bill") from None


def differs(bill, rows):
    """What the bill and what is drawn don't agree in, in a sentence, where the bill is of another town. Rows are sums by symbol."""
    for symbol in sorted({*bill, *rows}):
        known, row = bill.get(symbol), rows.get(symbol)
        if known is None or row is None or known.number != row.solids:
            return f"it has {known.number if known else 0} `{symbol}`, and {row.solids if row else 0} are drawn"
        if not known.unmeasured and not row.meshes and abs(known.front - row.front()) > row.slack():
            return f"the front of `{symbol}` is {float(known.front):g} there, and {float(row.front()):g} as drawn"
    return None
