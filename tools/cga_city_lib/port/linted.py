"""What the linter says of a script that was made."""
from typing import List, Tuple

from ..call import Refused
from ..program import asking, run
from ..replies import replies
from ..report import Report
from ..script import commands, lines_of, text_of, without
from ..ways import ways


def findings(program: str, name: str, text: str) -> Tuple[List[str], bool]:
    """The linter's lines, and whether nothing is refused and no shape came to nothing."""
    lines = without(lines_of(text.encode()), "quiet", "print", "model")
    status, out = run(program, text_of([*lines, "faults"]))
    asked, answers = commands([*lines, "faults"]), list(replies(out))
    if status or len(asked) != len(answers):
        raise Refused(f"the script is written, and wasn't looked at: the program ended with status {status}")
    faults = answers[-1][1:]
    report = Report(name, lines, asked, answers, ways(program, lines, faults), asking(program))
    return list(report.lines_for(faults)), not (report.refused or faults)
