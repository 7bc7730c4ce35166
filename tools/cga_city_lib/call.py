"""How each tool is called: a wrong word ends it with its reason and status 2, input that can't be taken with a sentence and
status 1, and neither with a trace of Python."""
import os
import re
import sys
from argparse import Namespace

from .ends import wait_at_ends
from .given_files import Unwritten, reason_of
from .guarded import INTERRUPTED, guard_if, is_on_guard, listen
from .strangers_text import told
from .tool_words import FirstWord, Words
from .version import VERSION
from .wrong_word import WrongFile, WrongValue, WrongWord


class Refused(Exception):
    """What is given can't be taken, with a sentence that says why."""


def number_in(low, high, kind=float):
    """A reader of a word that is a number from `low` to `high`."""

    def read(word):
        try:
            number = kind(word)
        except ValueError:
            number = None
        if number is None or not low <= number <= high:
            has_exponent = kind is int and re.search(r"\de[-+]?\d", word, re.IGNORECASE)
            more = " in digits, without an exponent" if has_exponent else ""
            raise WrongValue(
                f"`{told(word)}` isn't a{' whole' * (kind is int)} number from {grouped(low)} to {grouped(high)}{more}"
            )
        return number

    return read


def grouped(number):
    return f"{int(number) if number == int(number) else number:,}"


def call(main, words, text, refused=1):
    """Ends with the status of `main`, which is given the words that were read. `refused` is the status of input that can't
    be taken, for a tool whose status 1 means something else."""
    is_guarded = is_on_guard()
    try:
        listen()
        status = status_of(main, words, text, refused)
        guard_if(is_guarded)
    except KeyboardInterrupt:
        guard_if(is_guarded)
        status = INTERRUPTED
    sys.exit(status)


def status_of(main, words, text, refused):
    name, status = os.path.basename(sys.argv[0]), refused
    wait_at_ends()
    try:
        status = end_of(main, words, text)
    except WrongWord as fault:
        more = "" if isinstance(fault, WrongFile) else f"{form_for(fault, text)}; {sys.argv[0]} --help tells the words"
        status = said(name, f"{fault}{more}", 2)
    except (Refused, ValueError) as fault:
        said(name, fault)
    except BrokenPipeError:
        # whoever read has heard enough
        os.dup2(os.open(os.devnull, os.O_WRONLY), sys.stdout.fileno())
        status = 0
    except OSError as fault:
        is_read = fault.filename and not isinstance(fault, Unwritten)
        status = said(name, reason_of(fault.filename or "output", fault), 2 if is_read else refused)
    except (MemoryError, RecursionError):
        said(name, "the input is too large or too deeply nested for this machine's memory: cut it into parts")
    return status


def form_for(fault, text):
    """How the tool is called, where a word is missing or one too many; and what stands behind an option."""
    if fault.option:
        form = re.search(rf"{fault.option} ((?:(?:[A-Z]+[^\s,\]]*|[a-z]+(?:\|[a-z]+)+) ?)+)", text)
        return f": {fault.option} {form.group(1).strip()}" if form else ""
    usage = re.search(r"^usage: (.*)", text, re.MULTILINE)
    return f": {usage.group(1)}" if usage and fault.is_of_number else ""


def end_of(main, words, text):
    if sys.stdout is None:
        raise Refused("standard output is closed: send it to a file or to /dev/null")
    if {"--help", "-h"} & set(sys.argv[1:]):
        print(text.strip())
        status = 0
    elif "--version" in sys.argv[1:]:
        print(f"{os.path.basename(sys.argv[0])} of cga_city {VERSION}")
        status = 0
    else:
        sys.stdout.reconfigure(encoding="utf-8", newline="\n")
        status = main(words.parse_args(sys.argv[1:])) or 0
    sys.stdout.flush()
    return status


def said(name, text, status=1):
    if sys.stderr is not None:
        print(f"{name}: {text}", file=sys.stderr)
    return status


__all__ = [
    "FirstWord",
    "Namespace",
    "Refused",
    "Words",
    "WrongFile",
    "WrongValue",
    "WrongWord",
    "call",
    "grouped",
    "number_in",
    "said",
]
