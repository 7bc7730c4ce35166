"""The one door of the tools: a town from a script, which a program derives, or from the OBJ text that a run printed."""
import gc
import os
import re
import sys
from functools import lru_cache
from itertools import islice
from typing import Dict, List, Optional, Tuple

from .call import Namespace, Refused, Words, WrongValue, said
from .given import Given, given
from .instances import PLACES, Lots, from_told, printed
from .live import tells_changes
from .number_words import check_digits
from .numerals import numeral
from .obj import Town
from .obj_instances import from_obj, from_town
from .pipe import Ended
from .program import LAUNCHER, program_word, ready
from .session import Session
from .strangers_text import told as shown
from .told_town import Script, check_settings, refusals, script_of, told_by


KEPT: "Dict[str, Opened]" = {}  # towns of scripts that a process keeps, by their paths


class Opened:
    """A town, and the file that it came from: its instances lot by lot, and of a script an id of each."""

    def __init__(self, given: Given, lots: Lots, places: int, town: Optional[Town] = None) -> None:
        self.given, self.lots, self.places, self.read = given, lots, places, town
        self.is_exact = given.is_script and town is None  # the numbers are those of the derivation, and not rounded
        self.ids: Optional[Dict[str, List[str]]] = None
        self.told: Optional[
            Tuple[Script, List[List[str]]]
        ] = None  # the script and its replies, where solids aren't dressed

    @property
    def town(self) -> Town:
        """Its corners and faces, as `print` writes them."""
        if self.read is None:
            self.read = printed(self.lots, self.places)
        return self.read

    def text(self) -> str:
        """What a run printed; nothing of a script."""
        return "" if self.given.is_script else self.given.text()


def setting(word: str) -> str:
    """NAME=NUMBER as a line `attr` has it."""
    name, _, value = word.partition("=")
    number = numeral(value)
    check_digits(word, value)
    if not re.fullmatch(r"[A-Za-z_]\w*", name, re.ASCII) or number is None:
        raise WrongValue(f"`{shown(word)}` isn't NAME=NUMBER, such as storey=3 or storey=7/2")
    return f"{name} = {number}"


def add_words(known: Words) -> None:
    known.add_argument("--set", action="append", type=setting, default=[])
    known.add_argument("--program", type=program_word)


def opened(path: str, words: Namespace, is_ordered: bool = True, is_bare: bool = False) -> Opened:
    """The town of a script at its end, or the last one of an OBJ text; solids in the order of `print`, where that is wanted.
    A bare one has solids also where the script dresses their symbols, if the program tells instances."""
    if path in KEPT and not is_ordered:
        return KEPT[path]
    found = given(path)
    check_words(words, found)
    return read(found, words, is_ordered, is_bare)


def opened_both(old: str, new: str, words: Namespace) -> Tuple[Opened, Opened]:
    """Two towns; it is the second one whose attributes are set."""
    before, after = given(old), given(new)
    check_words(words, after, before)
    without = Namespace(**{**vars(words), "set": []})
    return read(before, without, False), read(after, words, False)


def check_words(words: Namespace, found: Given, *others: Given) -> None:
    """Refuses words of scripts where only OBJ texts are given."""
    if words.set and not found.is_script:
        raise Refused(f"{found.path} is an OBJ text, and --set goes with a script")
    if words.program and not any(file.is_script for file in (found, *others)):
        raise Refused(f"{found.path} is an OBJ text, and --program goes with a script")


def read(found: Given, words: Namespace, is_ordered: bool, is_bare: bool = False) -> Opened:
    """Reads the town, which has many small objects, and no ring of them that would have to be looked for."""
    gc.disable()
    try:
        return (
            scripted(found, words, is_ordered, is_bare)
            if found.is_script
            else Opened(found, *from_obj(found.text(), found.path))
        )
    finally:
        gc.freeze()
        gc.enable()


def opened_drawn(path: str, words: Namespace, is_ordered: bool = True, is_bare: bool = False) -> Opened:
    found = opened(path, words, is_ordered, is_bare)
    if not any(found.lots.values()):
        cure = f"tools/lint {path} tells what comes to nothing" if found.given.is_script else "no lot of it has a solid"
        raise Refused(f"nothing is drawn in {path}: {cure}")
    return found


@lru_cache(maxsize=None)
def teller(program: Optional[str]) -> Optional[str]:
    """The program that tells instances, unless one is named that doesn't."""
    if program is None or program == str(LAUNCHER):
        return ready(name="cga_live")
    return program if tells_changes(program) else None


def scripted(found: Given, words: Namespace, is_ordered: bool, is_bare: bool) -> Opened:
    script = script_of(found.path, found.data, words.set)
    program = None if script.is_dressed() and not is_bare else teller(words.program)
    if program is None:
        return Opened(found, *from_town(asked(script, words.program or str(LAUNCHER))))
    told = told_by(program, script, is_ordered)
    tell(script, told.answers)
    tell_faults(script, told.faults)
    opened = Opened(found, from_told(told), PLACES)
    opened.ids, opened.told = ids_of(opened.lots, told.ids), (script, told.answers)
    return opened


def ids_of(lots: Lots, ids: Optional[List[str]]) -> Optional[Dict[str, List[str]]]:
    if ids is None:
        return None
    rest = iter(ids)
    return {lot: list(islice(rest, len(instances))) for lot, instances in lots.items()}


def asked(script: Script, program: str) -> Town:
    """The town that a program prints, dressed where its symbols are."""
    session = Session(program)
    try:
        _, _, answers, faults, town = session.ask(script.lines)
    except Ended as fault:
        raise Refused(f"{script.path}: there is no answer: {fault}") from None
    finally:
        session.close()
    tell(script, answers)
    tell_faults(script, len(faults))
    return town


def tell_faults(script: Script, number: int) -> None:
    """Says how many shapes came to nothing."""
    if number:
        many = "1 shape comes" if number == 1 else f"{number:,} shapes come"
        more = ", once the values of --set stand in it" if script.settings else ""
        text = f"{script.path}: {many} to nothing: tools/lint {script.path} tells which and why{more}"
        said(os.path.basename(sys.argv[0]), text)


def tell(script: Script, answers: List[List[str]]) -> None:
    """Says of lines that the program refused the first one, and refuses a setting that it refused."""
    check_settings(script, answers)
    lines = refusals(script, answers)
    if lines:
        more = f"; {len(lines)} lines are refused, and tools/lint {script.path} tells all" if lines[1:] else ""
        said(os.path.basename(sys.argv[0]), lines[0] + more)
