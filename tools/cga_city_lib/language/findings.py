"""What the linter finds in a script, as an editor lists it; and how a script is run for it."""
import re
import subprocess
from pathlib import Path
from typing import Callable, Dict, List, NamedTuple, Optional

from ..causes import CODES
from ..program import LAUNCHER, is_here, ready
from ..replies import replies
from ..report import Report
from ..script import commands, is_open, text_of, tokens, without
from ..ways import ways
from .text import Document

NAME = "script"
HEAD = re.compile(rf"{NAME}:(\d+):(\d+): (note: )?(?:(\w+): )?(.*)")
ERROR, WARNING, NOTE = 1, 2, 3
SECONDS = 60
DEFINITION = Path(__file__).resolve().parent.parent.parent / "define"


class Runs(NamedTuple):
    """The program that replies to scripts."""

    program: str

    def answer(self, script: bytes) -> List[str]:
        """The lines that a run of the script replies; none where it takes too long or fails."""
        try:
            done = subprocess.run([self.program], input=script, capture_output=True, timeout=SECONDS)
        except (subprocess.TimeoutExpired, OSError):
            return []
        return done.stdout.decode("latin-1").split("\n")[:-1] if done.returncode == 0 else []

    def asking(self) -> Optional[Callable[[List[str]], List[List[str]]]]:
        """By what all refused lines of a block are found; the definition would take too long for it."""
        if self.program == str(DEFINITION):
            return None
        return lambda lines: list(replies(self.answer(text_of(lines))))


def runs_by(program: str) -> Runs:
    """The program that is named. In the launcher's place stands what it would run, or the definition in Python while that
    is being built."""
    if program != str(LAUNCHER):
        return Runs(program)
    return Runs(ready(program)) if is_here("cga_main") else Runs(str(DEFINITION))


def build_if_needed(program: str) -> None:
    """Has the launcher build the program if it isn't here, and doesn't wait for it."""
    if program == str(LAUNCHER) and not is_here("cga_main"):
        quiet = {"stdin": subprocess.DEVNULL, "stdout": subprocess.DEVNULL, "stderr": subprocess.DEVNULL}
        subprocess.Popen([program, "--build", "cga_main"], **quiet)


def findings(document: Document, runs: Runs) -> List[Dict]:
    """The linter's findings, each at its place."""
    lines = without(document.lines, "quiet", "print", "model")
    asks = [] if any(is_open(command, lines) for command in commands(lines)) else ["faults"]
    asked, answers = commands(lines + asks), list(replies(runs.answer(text_of(lines + asks))))
    if len(asked) != len(answers):
        return []
    faults = answers[-1][1:] if asks else []
    report = Report(NAME, lines, asked, answers, ways(runs.program, lines, faults), runs.asking())
    return listed(document, list(report.lines_for(faults)))


def listed(document: Document, said: List[str]) -> List[Dict]:
    """The lines of a report as findings: what is indented belongs to the finding above."""
    found: List[Dict] = []
    for line in said:
        head = HEAD.fullmatch(line)
        if head:
            found.append(finding(document, head))
        elif found and line.startswith("    ") and not is_shown(document, found[-1], line):
            found[-1]["message"] += "\n" + line.strip()
    return found


def is_shown(document: Document, last: Dict, line: str) -> bool:
    """Whether it is the script's own line, or the mark under it."""
    own = document.line(last["range"]["start"]["line"]).strip()
    return line.strip() in (own, "^") or line.strip() == own.encode("latin-1").decode("utf-8", "replace")


def finding(document: Document, head: re.Match) -> Dict:
    at, column, cause = int(head[1]) - 1, int(head[2]), head[4] or ""
    word = next((word for place, word in tokens(document.line(at)) if place == column), "")
    is_line = column == 1 and (head[3] or cause in CODES)
    place = document.whole_line(at) if is_line else document.range(at, column, column + max(len(word), 1))
    severity = NOTE if head[3] else WARNING if cause in CODES else ERROR
    return {"range": place, "severity": severity, "code": cause, "source": "cga_city", "message": head[5]}
