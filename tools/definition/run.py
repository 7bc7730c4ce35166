"""The text of a run, and what a block of lines is judged to be."""


def path_text(path):
    """A stroke before each index, or one alone for a root."""
    return "".join(f"/{i}" for i in path) or "/"


def step_text(step):
    answers = [step.answers[target] or "-" for target in ("noparent", "active")]
    return " ".join(
        ["# step", step.shape.lot, path_text(step.shape.path), step.shape.symbol, *answers, str(step.outcome)]
    )


def trace_lines(steps):
    return [f"# trace {len(steps)}"] + [step_text(step) for step in steps]


def trace_text_of(steps):
    return "".join(line + "\n" for line in trace_lines(steps))


def differs_at(texts, lines):
    """The first line, from 1, that differs or is missing, or is one too many; None where there is none."""
    for number, (text, line) in enumerate(zip(texts, lines), 1):
        if text != line:
            return number
    return None if len(texts) == len(lines) else min(len(texts), len(lines)) + 1


def judged(run, lines):
    return differs_at(trace_lines(run), lines)


def judged_text(differs):
    return "# accepted\n" if differs is None else f"# rejected at {differs}\n"
