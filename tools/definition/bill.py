"""The bill: for each symbol how many instances it has, and the sums of their fronts and volumes in millionths."""
from .fault import Fault
from .fraction import checked, pointed, round_of


def measure_of(scope):
    """Front and volume, or Overflow where one of them isn't in range."""
    w, h, d = scope.size
    front = checked(w * h)
    return round_of(front, 6), round_of(checked(front * d), 6)


def sums_of(drawn):
    """How many there are, the sums of the measured ones, and how many aren't measured."""
    front = volume = unmeasured = 0
    for each in drawn:
        try:
            own_front, own_volume = measure_of(each.scope)
        except Fault:
            unmeasured += 1
        else:
            front += own_front
            volume += own_volume
    return len(drawn), front, volume, unmeasured


def bill_of(drawn):
    """By the bytes of the symbols."""
    symbols = sorted({each.symbol for each in drawn})
    return {symbol: sums_of([each for each in drawn if each.symbol == symbol]) for symbol in symbols}


def bill_text_of(bill):
    lines = [
        f"# bill {symbol} {number} {pointed(6, front)} {pointed(6, volume)} {unmeasured}\n"
        for symbol, (number, front, volume, unmeasured) in bill.items()
    ]
    return f"# bill {len(bill)}\n" + "".join(lines)
