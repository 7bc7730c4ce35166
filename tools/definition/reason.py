"""Why a line of a trace isn't the run's."""
import re

from .asked import on_path
from .derivation import INSTANCE, WAITING, Configuration
from .expand import chosen
from .fault import Fault
from .frame import holds, meets
from .fraction import exact_text_of
from .run import path_text, step_text

STEP = re.compile(r"# step (\S+) (/|(?:/\d+)+) (\S+) (none|part|full|-) (none|part|full|-) (\S+)", re.ASCII)


def place_text(shape):
    return f"{shape.lot} {path_text(shape.path)}"


def configuration_before(sources, steps):
    """The configuration that so many steps reach."""
    configuration = Configuration(sources)
    for _ in range(steps):
        configuration.step()
    return configuration


def reason_for(sources, steps, at, line):
    """Why the line for step number at, from 0, of the run isn't what the trace says; None for a line that is missing."""
    if at == len(steps):
        return f"the run has ended: it has {len(steps)} steps, and this line is one too many"
    if line is None:
        return f"the trace ends here, and the run goes on with: {step_text(steps[at])}"
    said = STEP.fullmatch(line)
    if not said:
        return f"this is the text of no step; the run goes on with: {step_text(steps[at])}"
    configuration, step = configuration_before(sources, at), steps[at]
    lot, path, symbol, noparent, active, outcome = said.groups()
    if f"{lot} {path}" != place_text(step.shape):
        return not_next(configuration, step.shape, lot, path)
    if symbol != step.shape.symbol:
        return f"the symbol of {place_text(step.shape)} is {step.shape.symbol}"
    for target, answer in (("noparent", noparent), ("active", active)):
        if answer != (step.answers[target] or "-"):
            return why_answered(configuration, step, target)
    return why_outcome(configuration, step)


def why_outcome(configuration, step):
    """The rule that is taken, and what comes of it."""
    if step.outcome == "TooDeep":
        return f"the outcome is TooDeep, since the depth of {place_text(step.shape)} is {len(step.shape.path)}"
    try:
        rules = configuration.groups[step.shape.symbol].rules
        rule = chosen(configuration.attributes, step.shape, step.answers, rules)
    except Fault as fault:
        return f"the outcome is {fault.code}, while the conditions of {step.shape.symbol} are tried"
    by = f"by rule {rule.id}, the first of {step.shape.symbol} whose condition holds"
    return f"the outcome is {step.outcome}{', the number of children' if isinstance(step.outcome, int) else ''}, {by}"


# ---- another shape is next


def rank_text(configuration, shape):
    priority = configuration.groups[shape.symbol].priority
    return f"priority {priority}, depth {len(shape.path)}, lot {shape.lot}, path {path_text(shape.path)}"


def not_next(configuration, following, lot, path):
    """The run takes another shape."""
    takes = f"the run takes {place_text(following)}, of {rank_text(configuration, following)}"
    found = [member for member in configuration.members if place_text(member.shape) == f"{lot} {path}"]
    if not found:
        return f"no shape stands at {lot} {path} then; {takes}"
    if found[0].kind == INSTANCE:
        return f"{lot} {path} is an instance, and has no step; {takes}"
    if found[0].kind != WAITING:
        return f"{lot} {path} was taken by an earlier step; {takes}"
    own = f"with {rank_text(configuration, found[0].shape)}"
    return f"{lot} {path} waits, but isn't of least rank in the order {configuration.sources.mode}, {own}; {takes}"


# ---- another answer


def box_text(box):
    ends = zip("XYZ", box.low, box.high)
    return ", ".join(f"{axis} {exact_text_of(low)} to {exact_text_of(high)}" for axis, low, high in ends)


def why_answered(configuration, step, target):
    """The members that decide the answer."""
    answer, shape = step.answers[target], step.shape
    if answer is None:
        return f"{target} is -: no rule of {shape.symbol} asks for it"
    compared = [
        member.shape
        for member in configuration.members
        if not on_path(member.shape, shape) and (target == "noparent" or member.kind == WAITING)
    ]
    box = shape.scope.box
    own = f"the box of {place_text(shape)} is {box_text(box)}"
    deciding = [
        other for other in compared if meets(other.scope.box, box) and (answer != "full" or holds(other.scope.box, box))
    ]
    if not deciding:
        return f"{target} is none: {own}, and none of the {len(compared)} boxes that are compared meets it"
    how = "meets and holds it" if answer == "full" else "meets it, and none that does holds it"
    return (
        f"{target} is {answer}: {own}, and that of {place_text(deciding[0])}, {box_text(deciding[0].scope.box)}, {how}"
    )
