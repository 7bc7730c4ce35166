"""What to write in the place of a habit of CityEngine's CGA, which the refused place lies within."""
import re
from typing import Callable, List, Tuple, Union

Text = Union[str, Callable[["re.Match[str]"], str]]
ROOFS = {"Gable": "gable", "Hip": "hip", "Shed": "shed", "Pyramid": "hip"}
PRIMITIVES = {"Cube": 'I("cube")', "Quad": 'I("quad")'}
OCCLUSION = {
    "inside": 'Scope.occ("noparent") == "full"',
    "overlaps": 'Scope.occ("noparent") != "none"',
    "touches": 'Scope.occ("noparent") != "none", with a little depth before the symbol that asks: S(1r, 1r, 0.1)',
}


def constant(found: "re.Match[str]") -> str:
    value = found["value"].strip()
    is_number = re.fullmatch(r"-?\d+(\.\d+)?", value)
    return f"a constant is an attribute: attr {found['name']} = {value if is_number else 'NUMBER'}"


def attribute(found: "re.Match[str]") -> str:
    name, value = found["name"], found["value"].strip()
    if value.startswith("rand"):
        return f"chance stands in a rule: lot -> e(rand(2, 3, 10)) and e({name}) -> .."
    if value in ("true", "false"):
        return f"write 1 or 0, and {name} == 1 in a condition: attr {name} = {int(value == 'true')}"
    if value.startswith('"#'):
        return "an attribute is a number; a colour goes by symbol, in a JSON file for --colours"
    if value.startswith('"'):
        return f"an attribute is a number, and no text: number the texts, and ask for one by {name} == 1"
    if value.startswith("case"):
        return "an attribute is one number: write a rule of a symbol with a parameter for each case"
    return f"an attribute is one number: write `{value}` where the rules use it"


def within(kind: str) -> str:
    return rf"\b{kind}\s*\((?:[^()]|\([^()]*\))*(?:\)|$)"


HABITS: List[Tuple[str, Text]] = [
    (r"^\s*const\s+(?P<name>\w+)\s*=(?P<value>[^#]*).*", constant),
    (r"^\s*attr\s+(?P<name>\w+)\s*=\s*(?P<value>rand.*|true|false|\"[^\"]*\"?|case.*)", attribute),
    (r"^\s*attr\s+(?P<name>\w+)\s*=\s*(?P<value>[^#\"]*[A-Za-z*+][^#\"]*)", attribute),
    (
        r"^\s*@.*",
        "leave annotations out: a lot names its first symbol, and each attribute has a slider in tools/preview",
    ),
    (r"^\s*import\b.*", "there is no import: put the files together"),
    (
        r"^\s*version\s*\".*",
        "leave it out: `version 2`, as the first line of a script, is the only version that is written",
    ),
    (
        r"\bi\s*\(\s*\"[^\"]*[./][^\"]*\"?",
        'write I("cube") by a symbol of its own; a mesh takes its place by `asset` and `dress`, or in an engine by tools/places',
    ),
    (
        within("shape[LUO]") + r"\s*(\{.*)?",
        'cut it by two splits, the front last: Subdiv("Z", 1r, 6) { Subdiv("X", 6, 1r) { shape | remainder } | shape }',
    ),
    (
        r"(\bNIL\s+)?\bprimitive(?P<kind>[A-Z]\w*)\s*(\([^()]*\)?)?",
        lambda found: "write " + PRIMITIVES.get(found["kind"], 'I("cube"), or "quad", "shed", "gable" or "hip"'),
    ),
    (
        r"\b(?P<kind>inside|overlaps|touches)\b\s*(\([^()]*\)?)?\s*(-|&|\||$|and\b|or\b)",
        lambda found: f"a condition asks for it by {OCCLUSION[found['kind']]}",
    ),
    (within("report"), "leave it out: areas come by tools/table --floor SYMBOL, and counts by the line `bill`"),
    (
        within("center"),
        "leave it out, and move before you size: T(0.15 * Scope.sx, 0, 0.15 * Scope.sz) S(0.7r, 1r, 0.7r)",
    ),
    (within("align\\w*"), "leave it out: a lot's scope lies level, with Y up"),
    (
        within("roof(?P<kind>Gable|Hip|Shed|Pyramid)"),
        lambda found: f'write S(1r, height, 1r) I("{ROOFS[found["kind"]]}"): a height, and no angle',
    ),
    (within("set"), "leave it out: colours and materials go by symbol, in a JSON file for --colours"),
    (r"\bscope\s*\.\s*(?P<part>\w*)", lambda found: f"write Scope.{found['part']}, with a capital S"),
    (
        within("(label|print|echo)"),
        "leave it out: tools/lint tells what comes to nothing, and the line `trace` what is done",
    ),
    (
        within("comp") + r"\s*(\{.*)?",
        'components are written one by one: Comp("sidefaces") { facade } Comp("face", "top") { roof }',
    ),
    (within("offset"), "go inwards by T(2, 0, 2) S(Scope.sx - 4, 1r, Scope.sz - 4)"),
    (
        within("setback") + r"\s*(\{.*)?",
        'cut it off: Subdiv("Z", 1r, 5) { rest | front }, where the front is the last part',
    ),
    (
        r"\bsplit\s*\(\s*\w*\s*(,\s*\w+\s*)?\)\s*\{\s*~?\s*(?P<size>[\w.]+)\s*:[^{|}]*\}\s*\*.*",
        lambda found: f'write Repeat("Y", {found["size"]}) {{ body }}; sizes that differ go by Subdiv("Y", 3, 1r) {{ body | body }}',
    ),
    (
        within("split") + r"\s*(\{.*)?",
        'splits are written Subdiv("Y", 3, 1r) { body | body }, and equal parts Repeat("Y", 3) { body }; `~1` is 1r, `\'0.4` is 0.4 * Scope.sy',
    ),
    (r"\bRepeat\s*\([^()]*~\s*(?P<size>[\w.]*)", lambda found: f'write Repeat("X", {found["size"]}), without `~`'),
    (within("r"), "write Rx, Ry or Rz, one turn each, by quarter turns alone: Ry(90)"),
    (within("extrude"), "write S with a height: S(1r, 3, 1r) on a lot; on a face the depth is along Z: S(1r, 1r, 0.3)"),
    (
        within(
            "(envelope|scatter|taper|convexify|cleanupGeometry|softenNormals|reverseNormals|setNormals|innerRectangle)"
        ),
        "there is no such operation: leave it out, or draw the nearest form by T, S and I",
    ),
    (
        r"(?<![\w\"])(?P<file>(?!Scope\b)[A-Za-z_]\w*)\.(?P<name>[A-Za-z_]\w*)",
        lambda found: f"a name has no dot: put the files together, and call it {found['file']}_{found['name']}",
    ),
]


def habit(line: str, column: int) -> str:
    """The first habit that the place lies within, where the column is known, else nothing."""
    if not column:
        return ""
    for pattern, text in HABITS:
        for found in re.finditer(pattern, line, re.ASCII):
            if found.start() < column <= found.end():
                return text if isinstance(text, str) else text(found)
    return ""
