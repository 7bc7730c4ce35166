"""Faults and refusals."""


class Fault(Exception):
    """What ends a computation: a code such as Overflow."""

    def __init__(self, code):
        super().__init__(code)
        self.code = code


class LineFault(Exception):
    """The first fault of a line: a code, and its place from 1; LineTooLong has none."""

    def __init__(self, code, place=None):
        super().__init__(code)
        self.code, self.place = code, place


class Refused(Exception):
    """A refusal: a code, and what it carries."""

    def __init__(self, *words):
        super().__init__(*words)
        self.words = words


def line_text(fault):
    return fault.code if fault.place is None else f"{fault.code} at {fault.place}"


def block_text(line, fault):
    """The fault of a line of a block, behind the line's number."""
    return f"{fault.code} at {line}" if fault.place is None else f"{fault.code} at {line}:{fault.place}"


def refusal_text_of(refused):
    return "# refused " + " ".join(str(word) for word in refused.words) + "\n"
