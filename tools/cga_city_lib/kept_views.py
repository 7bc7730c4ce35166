"""What a script's comments keep for its page: cameras and the sun. They mean nothing to the program.

`# camera NAME X Y Z TURN TILT FIELD` has where the eye is, where it looks in degrees from north over east, how far up, and how
many degrees the shorter side of the window takes in. `# sun LATITUDE LONGITUDE MOMENT` has a moment as 2026-06-21T15:00+02:00.
"""
import os
import re
from typing import Any, Dict, Iterator, List, Optional, Tuple

from .numerals import on_exponent

NUMBER = r"-?\d+(?:\.\d+)?"
CAMERA = re.compile(rf"# camera (\w{{1,32}})((?: {NUMBER}){{6}})\s*", re.ASCII)
SUN = re.compile(rf"# sun ({NUMBER}) ({NUMBER}) (\d{{4}}-\d\d-\d\dT\d\d:\d\d(?:Z|[+-]\d\d:\d\d))\s*", re.ASCII)
MOST = 1 << 22  # bytes of a script in which its comments are looked for
BEGUN = re.compile(r"#\s*(camera|sun)\b.*\d")
HELP = {
    "camera": "a camera is kept as `# camera NAME X Y Z TURN TILT FIELD`, with six numbers and one blank between words",
    "sun": "the sun is kept as `# sun LATITUDE LONGITUDE MOMENT`, with a moment as 2026-06-21T15:00+02:00",
}


def cameras(lines: List[str]) -> Dict[str, str]:
    """The words of each camera by its name; the last one of a name counts."""
    found = filter(None, map(CAMERA.fullmatch, lines))
    return {match.group(1): match.group(2).strip() for match in found}


def sun(lines: List[str]) -> str:
    found = [match for match in map(SUN.fullmatch, lines) if match and abs(float(match.group(1))) <= 90]
    return " ".join(found[-1].groups()) if found else ""


def unread(lines: List[str]) -> Iterator[Tuple[int, str]]:
    """The number of each line that begins so and can't be read, and what it should be."""
    for number, line in enumerate(lines, 1):
        begun: Optional[Any] = BEGUN.match(line)
        if begun and not CAMERA.fullmatch(line) and not sun([line]):
            yield number, on_exponent(line) or HELP[begun.group(1)]


def head_of(lines: List[str]) -> Dict[str, Any]:
    return {"cameras": cameras(lines), "sun": sun(lines)}


def of_file(path: str) -> Dict[str, Any]:
    """What the comments of a script keep; an OBJ text keeps nothing."""
    if path.endswith(".obj") or not os.path.isfile(path):
        return head_of([])
    with open(path, "rb") as file:
        return head_of(file.read(MOST).decode("latin-1").splitlines())


def with_camera(lines: List[str], name: str, words: str) -> List[str]:
    """The lines with a camera in the place of the one of that name, or behind the last one, or at the end."""
    line, places = f"# camera {name} {words}", {}
    for at, match in enumerate(map(CAMERA.fullmatch, lines)):
        if match:
            places[match.group(1)] = at
    if name in places:
        return [*lines[: places[name]], line, *lines[places[name] + 1 :]]
    at = max(places.values()) + 1 if places else len(lines)
    return [*lines[:at], line, *lines[at:]]
