"""How a page shows attributes, as a script's comments say it, and how a value comes back into the script.

`# slider NAME LOW..HIGH step STEP` has the ends of a slider, `# choice NAME VALUE VALUE ..` the values of a choice, and
`# group TITLE: NAME NAME ..` which attributes stand together.
"""
import re
from typing import Any, Dict, Iterator, List, Tuple

from .numerals import on_exponent

NUMBER = r"-?\d+(?:\.\d+|/\d+)?"
SLIDER = re.compile(r"# slider (\w+) (-?\d+(?:\.\d+)?)\.\.(-?\d+(?:\.\d+)?)(?: step (\d+(?:\.\d+)?))?\s*", re.ASCII)
CHOICE = re.compile(rf"# choice (\w+)((?: {NUMBER})+)\s*", re.ASCII)
GROUP = re.compile(r"# group ([^:]+):((?: \w+)+)\s*")
BEGUN = re.compile(r"#\s*(slider|choice)\s+\w+\s+-?\d")
HELP = {
    "slider": "a slider is said as `# slider NAME LOW..HIGH step STEP`, with LOW below HIGH and STEP above 0",
    "choice": "a choice is said as `# choice NAME VALUE VALUE ..`, with one blank between words",
}


def slider_of(line: str) -> Tuple[str, Dict[str, Any]]:
    """The attribute's name and its ends, or an empty name."""
    match = SLIDER.fullmatch(line)
    low, high, step = (match.group(2), match.group(3), match.group(4)) if match else ("0", "0", None)
    if not match or float(low) >= float(high) or (step is not None and float(step) <= 0):
        return "", {}
    return match.group(1), {"low": low, "high": high, "step": step}


def head_of(lines: List[str]) -> Dict[str, Any]:
    """Sliders and choices by attribute, and the groups in order."""
    shapes: Dict[str, Any] = {}
    groups = []
    for line in lines:
        name, ends = slider_of(line)
        choice, group = CHOICE.fullmatch(line), GROUP.fullmatch(line)
        if name:
            shapes[name] = ends
        elif choice:
            shapes[choice.group(1)] = {"choices": choice.group(2).split()}
        elif group:
            groups.append([group.group(1).strip(), group.group(2).split()])
    return {"panel": {"shapes": shapes, "groups": groups}}


def unread(lines: List[str]) -> Iterator[Tuple[int, str]]:
    """The number of each line that begins so and can't be read, and what it should be."""
    for number, line in enumerate(lines, 1):
        begun = BEGUN.match(line)
        if begun and not slider_of(line)[0] and not CHOICE.fullmatch(line):
            yield number, on_exponent(line) or HELP[begun.group(1)]


def with_values(lines: List[str], values: Dict[str, str]) -> List[str]:
    """The lines with other values of attributes, each in the last line that says one; a comment behind it stays."""
    found = list(lines)
    for name, value in values.items():
        pattern = re.compile(rf"(\s*attr\s+{re.escape(name)}\s*=\s*)[^#]*?(\s*(?:#.*)?)", re.ASCII)
        places = [at for at, line in enumerate(found) if pattern.fullmatch(line)]
        if places:
            head, tail = pattern.fullmatch(found[places[-1]]).groups()  # type: ignore[union-attr]
            found[places[-1]] = f"{head}{value}{tail}"
    return found
