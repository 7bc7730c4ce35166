"""The parts of Subdiv and Repeat along an axis of a scope."""
from .fault import Fault
from .fraction import ZERO, ceil_of, checked
from .frame import part_of

MOST_PARTS = 10000


def checked_sum(numbers):
    """The sum, added from the left to 0, each step in range."""
    total = ZERO
    for number in numbers:
        total = checked(total + number)
    return total


def is_off(size, absolute, has_relative):
    """The absolute sizes are more than the size, or all of it beside a relative size, or less with none."""
    return absolute >= size if has_relative else absolute != size


def subdiv_of(scope, axis, sizes):
    """Each size is whether it is relative, and a number."""
    size = scope.size[axis]
    if size == 0:
        raise Fault("FlatScope")
    if any(number <= 0 for _, number in sizes):
        raise Fault("PartNotPositive")
    absolute = checked_sum(number for is_relative, number in sizes if not is_relative)
    relative = checked_sum(number for is_relative, number in sizes if is_relative)
    if is_off(size, absolute, any(is_relative for is_relative, _ in sizes)):
        raise Fault("SubdivSum")
    return parts_from(scope, axis, checked(size - absolute), relative, sizes)


def parts_from(scope, axis, rest, total, sizes):
    """For each part in order: its length, the part, and the place of the next."""
    parts, at = [], ZERO
    for is_relative, number in sizes:
        length = checked(checked(rest * number) / total) if is_relative else number
        parts.append(part_of(scope, axis, at, length))
        at = checked(at + length)
    return parts


def repeat_of(scope, axis, length):
    size = scope.size[axis]
    if size == 0:
        raise Fault("FlatScope")
    if length <= 0:
        raise Fault("PartNotPositive")
    count = ceil_of(checked(size / length))
    if count > MOST_PARTS:
        raise Fault("RepeatCount")
    step = checked(size / count)
    return [part_of(scope, axis, checked(step * i), step) for i in range(count)]
