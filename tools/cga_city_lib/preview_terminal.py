"""A preview on a terminal: what the page says of a script is written there as well, at each save that changes it."""
import threading
from typing import TextIO

from .shown import Shown
from .strangers_text import shown as readable


def lines_after(said: str, title: str) -> str:
    """What is written of what the page says; where it says nothing any more, that."""
    lines = said.split("\n") if said else [f"{title}: nothing is wrong any more"]
    return "".join(f"{readable(line)}\n" for line in lines)


def follow(shown: Shown, terminal: TextIO) -> None:
    said = ""
    while True:
        with shown.changed:
            shown.changed.wait_for(lambda: shown.value("said", "") != said)
            said = shown.value("said", "")
        try:
            terminal.write(lines_after(said, shown.value("title", "")))
            terminal.flush()
        except (OSError, ValueError):  # the terminal has gone, and the page stays
            return


def tell_on(terminal: TextIO, shown: Shown) -> None:
    """Begins to write, where it is a terminal."""
    if terminal.isatty():
        threading.Thread(target=follow, args=(shown, terminal), daemon=True).start()
