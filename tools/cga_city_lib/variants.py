"""Variants of a script, as its comments keep them: values of attributes under a name, and which symbols draw floors.

`# variant NAME ATTRIBUTE=VALUE ..` has the values that aren't those of the script. `# floor SYMBOL` says that the plan of
the symbol's solids is floor area, and `# floor SYMBOL=3` counts it once for each whole 3 of a solid's height.
"""
import re
from typing import Any, Dict, Iterator, List, Tuple

from .numerals import on_exponent
from .panel_words import NUMBER

VARIANT = re.compile(rf"# variant (\w{{1,32}})((?: [A-Za-z_]\w*={NUMBER})+)\s*", re.ASCII)
FLOOR = re.compile(r"# floor ([A-Za-z_]\w*(?:=\d+(?:\.\d+)?)?)\s*", re.ASCII)
BEGUN = re.compile(r"#\s*variant\s+\w+\s+\w+\s*=|#\s*floor\s+\w+\s*=")
HELP = {
    "variant": "a variant is kept as `# variant NAME ATTRIBUTE=VALUE ..`, with one blank between words and none beside `=`",
    "floor": "what draws floors is said as `# floor SYMBOL` or `# floor SYMBOL=HEIGHT`",
}


def values_of(words: str) -> Dict[str, str]:
    """The values of attributes, by their names."""
    return dict(word.split("=") for word in words.split())


def variants(lines: List[str]) -> Dict[str, Dict[str, str]]:
    """The values of each variant by its name; the last one of a name counts."""
    found = filter(None, map(VARIANT.fullmatch, lines))
    return {match.group(1): values_of(match.group(2)) for match in found}


def floors(lines: List[str]) -> List[str]:
    return [match.group(1) for match in filter(None, map(FLOOR.fullmatch, lines))]


def head_of(lines: List[str]) -> Dict[str, Any]:
    return {"variants": variants(lines)}


def unread(lines: List[str]) -> Iterator[Tuple[int, str]]:
    """The number of each line that begins so and can't be read, and what it should be."""
    for number, line in enumerate(lines, 1):
        if BEGUN.match(line) and not VARIANT.fullmatch(line) and not FLOOR.fullmatch(line):
            yield number, on_exponent(line) or HELP["variant" if "variant" in line.split("=")[0] else "floor"]


def line_of(name: str, words: str) -> str:
    """The comment that keeps a variant, or nothing where it can't be kept so."""
    line = f"# variant {name} {words}"
    return line if VARIANT.fullmatch(line) else ""


def with_variant(lines: List[str], name: str, words: str) -> List[str]:
    """The lines with a variant in the place of the one of that name, or behind the last one, or at the end."""
    places = {match.group(1): at for at, match in enumerate(map(VARIANT.fullmatch, lines)) if match}
    at = places.get(name, max(places.values(), default=len(lines) - 1) + 1)
    return [*lines[:at], line_of(name, words), *lines[at + (name in places) :]]
