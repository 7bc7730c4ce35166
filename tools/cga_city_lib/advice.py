"""What to write in the place of what is refused, where it is a habit of another CGA dialect or a common slip."""
import re

from .habits import habit
from .numerals import on_exponent
from .script import COMMANDS, COMMANDS_2, RESERVED, tokens

OF_HABITS = ("Unexpected", "BadByte", "UnknownSymbol", "UnknownName")
AT_PLACE = [  # what stands at the place
    (r"'[A-Za-z]", 'names in quotes have double ones: I("quad")'),
    (r"'", "a share of the scope is written with an r: S(1r, 6, 1r)"),
    (r"%", "a probability stands behind its body, as a number: -> a : 0.5 -> b : 0.5"),
    (r"~", "there are no approximate sizes: write 1r in Subdiv, or take Repeat for equal parts"),
    (r"&", "conditions are joined by `and`"),
    (r"\|\|", "conditions are joined by `or`"),
    (r"!", "a negation is written not [ .. ]"),
    (r";", "leave it out: a rule ends with its line"),
    (r"//|/\*", "a comment begins with #"),
    (r"-->", "an arrow is written ->"),
    (r"=(?!=)", "equality is written =="),
    (r"p[xyz]\b|rx?\b", 'a scope has sx, sy, sz and occ("..")'),
    (r"\xef\xbb\xbf", "the file begins with a byte order mark: save it without one"),
    (r"[\x80-\xff]", "only comments hold letters beyond a to z and A to Z"),
]
SOLIDS = 'I draws "cube", "quad", "shed", "gable" or "hip"; a form of another file comes by `asset` and `dress`'
BEHIND = [  # the tokens before the place
    (r"^PRIORITY$", "a priority is a whole number, and a smaller one goes first: PRIORITY 2:"),
    (r"\bR[xyz] \((?: -)?$", "turns are by 0, 90, 180, 270 or -90"),
    (r"\bI \($", SOLIDS),
    (r"\b(Subdiv|Repeat) \($", 'an axis is "X", "Y" or "Z"'),
    (
        r"\bComp \($",
        'Comp takes "faces", "sidefaces", "edges", "vertices", "face", "front" (or another side), or "edge", 1 to 12',
    ),
    (r"\bocc \($", 'occ asks "noparent" or "active"'),
    (r"\brand \( [^,]*,[^,]*$", "rand takes three values: rand(low, high, steps)"),
    (r"^(put \d+ )?\d+ : .*\bNIL$", "nothing follows NIL but a probability or another arrow"),
    (r"= -?\d+(\.\d+)?( /)?$", "a quotient is of two whole numbers: 5/2"),
]
OPERATIONS = {  # those of other dialects
    "split": 'splits are written Subdiv("X", sizes) { body | body }',
    "subdiv": "write Subdiv",
    "comp": 'components are written Comp("sidefaces") { body }',
    "repeat": 'write Repeat("X", length) { body }',
    "i": 'write I("cube")',
    "t": "write T(x, y, z)",
    "s": "write S(x, y, z)",
    "r": "write Rx, Ry or Rz",
    "extrude": "write S with a value along the axis that is flat: S(1r, 1r, 0.3) on a face",
    "setback": "cut it off by two Subdivs with NIL",
    "offset": "cut it off by two Subdivs with NIL",
    "roofGable": 'write S(1r, height, 1r) I("gable")',
    "roofHip": 'write S(1r, height, 1r) I("hip")',
    "color": "leave it out: colours go by symbol, in a JSON file for --colours; give the part a symbol of its own",
    "texture": "leave it out: colours and textures go by symbol, in a JSON file for --colours",
    "nil": "write NIL",
    "Nil": "write NIL",
    "case": "there is no case: write a rule of the symbol for each, tried by rising number: 1: a : x > 1 -> b and 2: a -> c",
    "else": "there is no else: write a further rule of the symbol with a greater number",
}
FORMS = {
    "lot": "lot NAME SEED X Z WIDTH DEPTH SYMBOL",
    "put": "put PRIORITY ID: SYMBOL -> ..",
    "attr": "attr NAME = VALUE",
    "priority": "priority SYMBOL NUMBER",
    "drop": "drop ID",
    "unlot": "unlot NAME",
    "print": "print, or print NAME",
    "order": "order breadth, or order depth",
    "dress": "dress SYMBOL NAME",
    "undress": "undress SYMBOL",
    "asset": "asset NAME",
    "model": "model, or model NAME",
}


class Place:
    """A column of a line, 0 where only the line is known, and whether the line stands in a block."""

    def __init__(self, line, column, is_inside):
        self.line, self.column, self.is_inside = line, column, is_inside
        self.before = " ".join(word for at, word in tokens(line) if at < column)
        self.rest = line[column - 1 :] if column else ""
        word = re.match(r"\w+", self.rest, re.ASCII)
        self.word = word.group() if word else ""

    def is_in_rule(self):
        return ":" in self.before or "->" in self.before


def advice(cause, words, place):
    """The first advice that fits, or nothing; `words` are what is told with the cause."""
    told = habit(place.line, place.column) if cause in OF_HABITS else ""
    if told:
        return told
    if cause in ("UnknownSymbol", "BadProbability"):
        is_first = cause == "UnknownSymbol" and place.line.split()[:1] == ["put"] and not place.is_inside
        return of_names(words[-1:], place) or ("put that rule first, or both in one block" if is_first else "")
    if cause == "BadNumber":
        return on_exponent(place.rest.split(" ")[0])
    if cause == "BadByte":
        is_file = re.search(r'\bI\(\s*"\w*$', place.line[: len(place.line) - len(place.rest)])
        return (
            SOLIDS if is_file else at_place(place) or of_names(re.findall(r'(\w+) \( "(?: \w+)?$', place.before), place)
        )
    if cause == "Unexpected":
        called = re.findall(r"(\w+) \($", place.before)
        return (
            of_names(called + [place.word], place)
            or of_call(place)
            or at_place(place)
            or behind(place)
            or at_start(place)
            or within(place)
        )
    return ""


def calls(before):
    """The name before the bracket that is open last, with how many commas stand in it; and the name of a call that ends."""
    words, stack, closed = before.split(), [], ""
    for at, word in enumerate(words):
        closed = ""
        if word == "(":
            stack.append([words[at - 1] if at else "", 0])
        elif word == ")" and stack:
            closed = stack.pop()[0]
        elif word == "," and stack:
            stack[-1][1] += 1
    return stack[-1] if stack else ["", 0], closed


def of_call(place):
    """Of what stands in round brackets, and of braces behind them."""
    (name, commas), closed = calls(place.before)
    at = place.rest[:1]
    if closed and at == "{":
        return (
            OPERATIONS.get(closed)
            or f"{closed}(..) has no body in braces; what follows is done in its scope: S(1r, 6, 1r) mass"
        )
    if at == "{" and place.is_in_rule():
        return "braces belong to Subdiv, Repeat and Comp; items are grouped by square brackets"
    if name in ("T", "S") and (at == ")" and commas < 2 or at == "," and commas == 2):
        return f"{name} takes three values: {name}(x, y, z)"
    is_value = re.match(r"\w", place.rest, re.ASCII) and place.word not in ("and", "or", "not", "r", "rx")
    if name[:1].isalpha() and is_value and re.search(r"[\w)\"]$", place.before, re.ASCII):
        return "a comma stands between values"
    return ""


def of_names(names, place):
    asked = [*names, *(word for _, word in tokens(place.line) if word in ("case", "else"))]
    return next((OPERATIONS[name] for name in asked if name in OPERATIONS), "")


def at_place(place):
    return next((text for pattern, text in AT_PLACE if re.match(pattern, place.rest)), "")


def behind(place):
    return next((text for pattern, text in BEHIND if re.search(pattern, place.before)), "")


def at_start(place):
    """Of a line whose first token is wrong."""
    if place.before or not place.rest.strip():
        return ""
    if place.word in COMMANDS + COMMANDS_2 and place.is_inside:
        return f"`{place.word}` stands in no block: end this one by `end` first"
    if place.word in COMMANDS_2:
        return "it takes `version 2` as the first line"
    if place.is_inside and re.match(r"\w+\s*(\(.*\))?\s*-+>", place.rest):
        return f"a rule begins with its number: 1: {place.word} -> .."
    if place.word not in [*COMMANDS, *COMMANDS_2, "PRIORITY"] and place.word.lower() in COMMANDS + COMMANDS_2:
        return f"commands are written in small letters: {place.word.lower()}"
    if place.word in ("version", "end"):
        return "no block is open" if place.word == "end" else "`version 2` is the first line of all"
    if place.is_inside:
        return "a rule begins with its number: 1: house -> .."
    if re.match(r"\d+\s*:|\w+\s*(\(.*\))?\s*(:|->)|PRIORITY\b", place.rest):
        return "a rule has a number, and stands in a block or behind `put` and a priority"
    return "no command begins so"


def within(place):
    """Of a line that went on wrongly."""
    if not place.rest.strip() or place.rest.lstrip().startswith("#"):
        return "the line ends too early"
    if place.word in RESERVED and place.word not in ("and", "or", "not"):
        return f"`{place.word}` is reserved and can't be a name here" + (
            ": call it storey or level" if place.word == "floor" else ""
        )
    is_open = place.before.count("(") > place.before.count(")")
    if (
        is_open
        and re.match(r"and\b|or\b|not\b|[<>]|==|!=", place.rest)
        or place.is_in_rule()
        and place.rest.startswith("(")
    ):
        return "conditions and items are grouped by square brackets; round ones hold values"
    head = place.before.split()[0]
    if head == "lot" and place.word == "turned":
        return "a lot is turned in a region alone: cut the script by tools/districts"
    if place.is_in_rule() or head not in COMMANDS + COMMANDS_2:
        return ""
    return f"the command is written {FORMS[head]}" if head in FORMS else f"`{head}` stands alone on its line"
