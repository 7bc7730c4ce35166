"""Which program is here: the proved one of these sources, else one that was built of them without a proof and kept, else none.
Sums of the sources decide, and for a kept one the kit that built it."""
import os
from typing import Dict, Iterator, List, Tuple

from .sources import Program, say, stamp_of

PROVED, KEPT, NONE = "proved", "kept", "none"
WAY = "tools/cga_city_lib/native.py"  # how it is built
HOW = "./cga_city --prove proves the program (half an hour to an hour on four processors, once)"


def kit_name() -> str:
    """The line by which the kit on the PATH names itself; nothing where there is none."""
    for folder in os.environ.get("PATH", "").split(os.pathsep):
        rt = os.path.join(folder, "rt")
        if os.access(rt, os.X_OK):
            kit = os.path.dirname(os.path.dirname(os.path.realpath(rt)))
            try:
                with open(os.path.join(kit, "KIT-ID"), encoding="utf-8", errors="surrogateescape") as file:
                    return f"kit: {file.readline().strip()}"
            except OSError:
                return f"kit: {kit}"
    return ""


class Kept(Program):
    """A program that was built without a proof. It is made of the code alone, and any kit that is here has to be its own."""

    parts, made = ("src",), "built"

    def __init__(self, top: str, name: str, out: str) -> None:
        super().__init__(top, name)
        self.out, self.path = out, os.path.join(out, name)
        self.record = self.path + ".sources"

    def stamps(self, crates: List[str]) -> Dict[str, str]:
        return {**super().stamps(crates), WAY: stamp_of(os.stat(os.path.join(self.top, WAY)))}

    def lines(self) -> List[str]:
        """What is kept beside the sums."""
        return [*self.crates().values(), kit_name()]

    def fault_of_lines(self, lines: List[str], now: List[str]) -> str:
        kit = kit_name()
        if kit and lines[-1:] != [kit]:
            return "another kit built it"
        return super().fault_of_lines(lines[:-1], now)


def cache_folder() -> str:
    return os.environ.get("XDG_CACHE_HOME") or os.path.join(os.path.expanduser("~"), ".cache")


def places(top: str, name: str) -> Iterator[Kept]:
    """Where it may be kept: in the checkout, or in the user's cache where the checkout can't be written."""
    from hashlib import sha256  # most calls find the first one, and it takes long to load

    yield Kept(top, name, os.path.join(top, "crates", name, "out", "unproved"))
    of_top = sha256(os.fsencode(top)).hexdigest()[:20]
    yield Kept(top, name, os.path.join(cache_folder(), "cga_city", of_top, name))


def here(top: str, name: str) -> Tuple[str, Program, str]:
    """Which program is here, and why it isn't the proved one."""
    proved = Program(top, name)
    why = proved.fault()
    if not why:
        return PROVED, proved, ""
    for kept in places(top, name):
        if not kept.fault():
            return KEPT, kept, why
    return NONE, proved, why


def say_unproved(why: str) -> None:
    say(f"{why}, so THIS ANSWER IS UNPROVED, by a program without checks; {HOW}")
