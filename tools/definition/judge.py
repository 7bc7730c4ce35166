"""Judges a trace: whether it is the run of a script's sources, and where and why not, by the definitions alone."""
import re

from .clock import Clock, TimeIsOver
from .lexer import tokens_of
from .fault import LineFault
from .output import cut, effects_of
from .reason import reason_for
from .replies import run_of
from .run import judged

NO_TEXT = re.compile(r"[\x00-\x08\x0b\x0c\x0e-\x1f\x7f]")


class BadInput(ValueError):
    """A file can't be taken: its name, a line, and why."""

    def __init__(self, name, line, why):
        super().__init__(f"{name}:{line}: {why}")


def read_text(name):
    with open(name, "rb") as file:
        text = file.read().decode("latin-1")
    found = NO_TEXT.search(text)
    if found:
        line = text.count("\n", 0, found.start()) + 1
        raise BadInput(
            name, line, f"this isn't text: it has the byte {ord(found.group())}; give the file as it was written"
        )
    return text


# ---- the script


def words_of(line):
    try:
        return [token.said for token in tokens_of(line)]
    except LineFault:
        return None


def check_version(name, text):
    """The first line that isn't blank makes the version 2."""
    lines, rest = cut(text)
    for number, line in enumerate([*lines, rest], 1):
        words = words_of(line)
        if words == ["version", 2]:
            return
        if words != []:
            is_other = words is not None and words[:1] == ["version"]
            raise BadInput(
                name,
                number,
                "this is another version; the judge knows version 2 alone"
                if is_other
                else "this is of version 1, which has no traces; a script of version 2 begins with the line `version 2`",
            )
    raise BadInput(name, 1, "the script is empty; it begins with the line `version 2`")


def state_of(name, text, clock):
    """What the script has come to."""
    check_version(name, text)
    opened = state = None
    number = text.count("\n") + (not text.endswith("\n"))
    for at, (state, _) in enumerate(effects_of(6, text), 1):
        clock.at = f"line {min(at + 1, number)} of {number} of the script"
        opened = None if state.block is None else opened or at
    if state.block is not None:
        kind = state.block.kind
        raise BadInput(
            name, opened, f"the script is open at its end: the block that `{kind}` opens here has no line `end`"
        )
    return state


# ---- the trace


def trace_of(name, text):
    """The lines of the last trace, and the number of its first line."""
    lines, rest = cut(text)
    if rest:
        raise BadInput(name, len(lines) + 1, "the trace is open at its end: its last line has no line feed")
    heads = [at for at, line in enumerate(lines) if line.startswith("# trace ")]
    if not heads:
        raise BadInput(name, 1, "there is no line `# trace N`; a trace is what the command `trace` writes")
    return lines[heads[-1] :], heads[-1] + 1


def why_rejected(state, differs, lines):
    """Why the line of this number, from 1, isn't that of the run."""
    run = run_of(state)
    if differs == 1:
        return f"the run has {len(run)} steps"
    return reason_for(state.sources, run, differs - 2, lines[differs - 1] if differs <= len(lines) else None)


def judge(script, trace, clock):
    """The verdict as a text, and the exit status."""
    lines, first = trace_of(trace, read_text(trace))
    state = state_of(script, read_text(script), clock)
    differs = judged(run_of(state), lines)
    if differs is None:
        return f"accepted: {len(lines) - 1} steps, each as the definitions say", 0
    return f"rejected at {differs}, {trace}:{first + differs - 1}: {why_rejected(state, differs, lines)}", 1


def limited(script, trace, seconds=None):
    """The verdict and the exit status, or why there is none."""
    try:
        with Clock("judge", seconds) as clock:
            return judge(script, trace, clock)
    except TimeIsOver:
        return f"not judged: the limit of {seconds} seconds was over; give more by --seconds", 3
    except MemoryError:
        return "not judged: memory was wanting", 3
    except KeyboardInterrupt:
        return "not judged: it was interrupted", 3
