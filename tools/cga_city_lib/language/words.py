"""What each word of the language is: how it is written, and a sentence."""
from typing import Dict, List, Tuple

ITEMS: Dict[str, Tuple[str, str]] = {
    "T": ("T(x, y, z)", "moves the scope along its own axes"),
    "S": ("S(x, y, z)", "sets the size of the scope; `1r` is once the present size"),
    "Rx": ("Rx(90)", "turns the axes about X by 0, 90, 180, 270 or -90 degrees"),
    "Ry": ("Ry(90)", "turns the axes about Y by 0, 90, 180, 270 or -90 degrees"),
    "Rz": ("Rz(90)", "turns the axes about Z by 0, 90, 180, 270 or -90 degrees"),
    "I": ('I("cube")', "draws a cube, quad, shed, gable or hip into the scope"),
    "Subdiv": ('Subdiv("X", 1r, 2, 1r) { a | b | a }', "cuts the scope into parts; `1r` shares what the others leave"),
    "Repeat": (
        'Repeat("X", length) { a }',
        "cuts the scope into as few equal parts as go, none longer than the length",
    ),
    "Comp": ('Comp("sidefaces") { a }', "takes faces, edges or vertices of the scope"),
    "NIL": ("NIL", "makes nothing"),
}
VALUES: Dict[str, Tuple[str, str]] = {
    "Scope": ("Scope.sx", "a size of the scope, or a question about what stands where"),
    "rand": ("rand(low, high, steps)", "one of steps + 1 numbers at equal distances, by the shape's seed"),
    "floor": ("floor(x)", "the greatest whole number that is at most x"),
    "ceil": ("ceil(x)", "the least whole number that is at least x"),
    "and": ("a and b", "holds where both tests hold"),
    "or": ("a or b", "holds where one of both holds"),
    "not": ("not [ a ]", "holds where the condition in brackets doesn't"),
}
COMMANDS: Dict[str, Tuple[str, str]] = {
    "rules": ("rules .. end", "replaces all attributes and rules"),
    "put": ("put PRIORITY ID: SYMBOL -> ..", "puts a rule, in the place of the one with its number"),
    "drop": ("drop ID", "takes a rule away"),
    "attr": ("attr NAME = VALUE", "declares an attribute in a block, and sets it outside"),
    "priority": ("priority SYMBOL NUMBER", "sets the priority of a symbol; a smaller one goes first"),
    "lot": ("lot NAME SEED X Z WIDTH DEPTH SYMBOL", "adds a lot, or replaces the lot of this name"),
    "unlot": ("unlot NAME", "takes a lot away"),
    "quiet": ("quiet", "accepted edits reply nothing from then on"),
    "print": ("print, or print NAME", "writes the OBJ text of the town, or of one lot"),
    "faults": ("faults", "lists the shapes that came to nothing, and why"),
    "grammar": ("grammar", "writes the attributes and rules"),
    "stats": ("stats", "counts lots, shapes, solids, faults and expansions"),
    "order": ("order breadth, or order depth", "how shapes of one priority are taken"),
    "city": ("city .. end", "replaces attributes, rules, lots and order at once"),
    "dump": ("dump", "writes the sources as a script"),
    "undo": ("undo", "goes back to before the last accepted edit"),
    "redo": ("redo", "goes forward again"),
    "asset": ("asset NAME .. end", "reads a mesh"),
    "dress": ("dress SYMBOL NAME", "`model` draws the symbol's solids by that asset"),
    "undress": ("undress SYMBOL", "`model` draws the symbol's solids as they are"),
    "model": ("model, or model NAME", "writes the OBJ text with assets"),
    "bill": ("bill", "counts the solids of each symbol, their fronts and volumes"),
    "trace": ("trace", "writes each expansion of the town, in order"),
    "judge": ("judge .. end", "says whether the lines are the town's trace"),
    "PRIORITY": ("PRIORITY N:", "the priority of the rules that follow; a smaller one goes first"),
    "end": ("end", "ends a block"),
    "version": ("version 2", "as the first line: a larger budget and more commands"),
}
IN_BLOCK = ["attr", "PRIORITY", "end"]
PARTS = ["sx", "sy", "sz", "occ"]
TEXTS: List[Tuple[str, List[str]]] = [  # what stands before the quote, and the words in quotes
    (r"\bI\s*\($", ["cube", "quad", "shed", "gable", "hip"]),
    (r"\b(Subdiv|Repeat)\s*\($", ["X", "Y", "Z"]),
    (r"\bComp\s*\(\s*\"face\"\s*,$", ["front", "right", "back", "left", "top", "bottom"]),
    (r"\bComp\s*\($", ["sidefaces", "faces", "face", "edges", "edge", "vertices"]),
    (r"\bocc\s*\($", ["noparent", "active"]),
    (r"\bocc\s*\([^)]*\)\s*[!=]=$", ["none", "part", "full"]),
]


def said_of(word: str) -> str:
    """What a word is, for a hover; nothing for a name."""
    for known in (ITEMS, VALUES, COMMANDS):
        if word in known:
            form, text = known[word]
            return f"`{form}`: {text}"
    return ""
