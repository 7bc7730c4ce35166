"""How a tool begins: its first import is this one, so that an interrupt ends the tool while the rest of it loads, too."""
import _signal  # the half in C: all of `signal` takes long to load
import os
import sys
from typing import Any, Callable

INTERRUPTED = 130


def end(*_: Any) -> None:
    os._exit(INTERRUPTED)


def guard() -> None:
    """From now on an interrupt ends the process at once. One that was ignored before stays so."""
    if _signal.getsignal(_signal.SIGINT) != _signal.SIG_IGN:
        _signal.signal(_signal.SIGINT, end)


def is_on_guard() -> bool:
    return _signal.getsignal(_signal.SIGINT) == end


def guard_if(was: bool) -> None:
    if was:
        guard()


def listen() -> None:
    """From now on an interrupt is an exception, so that whoever works can clean up."""
    if is_on_guard():
        _signal.signal(_signal.SIGINT, _signal.default_int_handler)


def call(main: Callable[[Any], Any], words: Any, text: str, refused: int = 1) -> None:
    """Calls a tool, as the function of this name in `call` says, which is loaded now."""
    from .call import call as ended

    ended(main, words, text, refused)


def is_tool() -> bool:
    """Whether the process runs a tool, and not a program that uses a tool's modules."""
    return not getattr(sys.modules["__main__"], "__file__", ".py").endswith(".py")


if is_tool():
    guard()
