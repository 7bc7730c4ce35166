"""What a shape is answered at its step, of the shapes that are there."""
from .check import mentions_target
from .frame import holds, meets


def on_path(a, s):
    """The first is the second, or an ancestor of it: it has the lot, and its path begins the other's."""
    return a.lot == s.lot and s.path[: len(a.path)] == a.path


def boxes_beside(s, others):
    """The boxes of shapes, but for s and its ancestors."""
    return (other.scope.box for other in others if not on_path(other, s))


def answer_of(box, others):
    """Full when some box meets and holds this one, otherwise part when some box meets it, otherwise none."""
    met = [other for other in others if meets(other, box)]
    return "full" if any(holds(other, box) for other in met) else "part" if met else "none"


def answer_if(mentioned, s, others):
    return answer_of(s.scope.box, boxes_beside(s, others)) if mentioned else None


def answers_of(rules, s, existing, waiting):
    """noparent is asked of all shapes, active of those that wait."""
    return {
        "noparent": answer_if(mentions_target(rules, "noparent"), s, existing),
        "active": answer_if(mentions_target(rules, "active"), s, waiting),
    }
