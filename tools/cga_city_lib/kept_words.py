"""What tools/region does: begins the jobs of a region that was cut, replies to lines on standard input, and keeps what it accepted."""
import shlex
import sys
from hashlib import sha256
from itertools import cycle
from pathlib import Path
from typing import Any, Iterator, List

from .call import Refused, Words, WrongValue
from .findings import Findings
from .files import alone
from .jobs import SCRIPT, Program
from .journal import Journal
from .kept_commands import Commands
from .kept_parts import TooManyLots
from .kept_region import KeptRegion, RefusedByJob
from .kept_sources import Sources, lot_of
from .live import tells_changes
from .plan import read_plan
from .program import program_word, ready
from .region import Region
from .strangers_text import told
from .told_boxes import NotTold


def words() -> Words:
    known = Words()
    known.add_argument("folder", type=Path)
    known.add_argument("--by", type=words_before, action="append", default=[])
    known.add_argument("--changes", action="store_true")
    known.add_argument("--program", type=program_word)
    known.add_argument("--hulls", type=program_word)
    return known


def words_before(word: str) -> List[str]:
    """Words as a shell reads them."""
    try:
        return shlex.split(word)
    except ValueError:
        raise WrongValue(f"`{told(word)}` isn't words of a shell: a quotation has no end") from None


def main(given: Any) -> None:
    """Keeps the region of a folder until standard input ends."""
    plan = read_plan(given.folder)
    with alone(given.folder):
        keep(given, plan)


def keep(given: Any, plan: Any) -> None:
    script = Region(given.folder / SCRIPT)
    if any(script.angles):
        raise Refused(
            f"{given.folder} has lots that are turned, and a cga_live tells no angles: keep the lots of one angle"
        )
    journal = Journal(given.folder, sha256(script.data).hexdigest())
    program = Program(ready(given.program, "cga_live"), [])
    if given.program and not tells_changes(given.program):
        raise Refused(f"{given.program} doesn't tell what an edit changed: name a cga_live by --program")
    program.save(given.folder)
    path = str((given.folder / program.name).resolve())
    by = cycle(given.by or [[]])
    region = KeptRegion(
        sources_of(script, plan),
        plan.options,
        Findings(given.folder),
        lambda: [*next(by), path],
        lambda: ready(given.hulls, "cga_hulls"),
    )
    region.dressed += plan.heads[0].dressed
    commands = Commands(region, [path])
    try:
        commands.replay(journal)
        begin(region, given.changes)
        say(b"")
        for text in commands.replies(lines_in()):
            say(text)
            if not text:
                region.prepare()
    finally:
        commands.end()
        region.end()
        journal.close()


def sources_of(script: Region, plan: Any) -> Sources:
    """The sources that the cut was of."""
    sources = Sources(plan.heads[0].city)
    for place, line in enumerate(script.lots):
        found = lot_of(line, place)
        assert found
        sources.lots[found[0]] = found[1]
    sources.places = len(sources.lots)
    return sources


def begin(region: KeptRegion, is_silent: bool) -> None:
    """Begins the jobs, and tells the instances of each."""
    try:
        for changes in region.begin():
            say(b"" if is_silent else changes.text())
    except (RefusedByJob, NotTold, TooManyLots) as fault:
        raise Refused(
            f"the region can't be kept ({str(fault)[2:] or 'a district has more lots than a run takes'}): cut it with fewer lots a "
            "job (--lots), or a district with --rings 2"
        ) from None


def lines_in() -> Iterator[str]:
    """The lines of standard input, each as soon as it is complete."""
    for line in sys.stdin.buffer:
        text = line.decode("latin-1").rstrip("\n")
        yield text[:-1] if text.endswith("\r") else text


def say(text: bytes) -> None:
    """Writes a text; an empty one says that a reply is whole."""
    if text:
        sys.stdout.buffer.write(text)
    else:
        sys.stdout.buffer.flush()
