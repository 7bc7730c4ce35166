"""What each cause of a refusal and each code of a fault means, in a sentence, and what helps against a fault."""
import re
from typing import Callable, Dict, List, Sequence, Tuple, Union

CAUSES = {  # {0} and {1} are what is told with the cause: an id, a name, or an id and a name
    "LineTooLong": "the line has more than 4,096 bytes",
    "BadByte": "no token begins with this character, or a name in quotes can't have it",
    "BadNumber": "a number has at most 18 digits and no letter right behind it but an r",
    "LongName": "a name has at most 32 bytes",
    "OpenText": "these quotes aren't closed",
    "Unexpected": "no line can go on like this here",
    "TooNested": "more than 32 brackets are open here",
    "OpenBlock": "no line `end` ends this block",
    "NoRule": "no rule has the number {0}",
    "NoAttribute": "no attribute `{0}` is there: a block declares it by `attr {0} = VALUE`",
    "NoLot": "no lot has the name `{0}`",
    "NoSymbol": "no rule has the symbol `{0}`; a lot begins with one whose rules have no parameters",
    "BadLot": "the width and depth of lot `{0}` have to be above 0, and its corners within the range of numbers",
    "TooManyLots": "a town has at most 4,096 lots",
    "TooManyRules": "a grammar has at most 512 rules",
    "TooManyAttributes": "a grammar has at most 128 attributes",
    "DoubleAttribute": "the attribute `{0}` is declared twice",
    "DoubleId": "an earlier rule has the number {0}",
    "SplitPriority": "all rules of `{1}` have one priority, and rule {0} has another",
    "WrongArity": "rule {0} gives `{1}` another number of parameters than the first rule of `{1}`",
    "DoubleName": "the parameter `{1}` of rule {0} has the name of another one, or of an attribute",
    "BadProbability": "the probabilities of rule {0} don't add up to 1, or one is 0 or has more than six decimals",
    "UnknownSymbol": "rule {0} makes a symbol `{1}`, and there is no rule for it",
    "PartsDiffer": "a Subdiv of rule {0} has another number of sizes than of bodies",
    "UnknownName": "`{1}` in rule {0} is neither a parameter nor an attribute",
    "OverBudget": "the town would have more than 100,000 shapes (400,000 in version 2), or a rule never ends",
    "NoUndo": "no edit is there to go back from, or sixteen were undone",
    "NoRedo": "no undone edit is there to go forward to",
    "LongDump": "the printed text of rule {0} has more than 4,096 bytes",
    "UnknownLine": "an asset has lines `v X Y Z`, `f I J K ..`, and such as are passed over",
    "BadVertex": "a vertex is `v` and three decimals without an exponent",
    "BadFace": "a face is `f` and 3 to 64 numbers of vertices that are there",
    "TooManyVertices": "the asset has too many vertices",
    "TooManyFaces": "the asset has too many faces",
    "NoFace": "the asset has no face",
    "TooManyAssets": "there are too many assets",
    "TooManyDresses": "too many symbols are dressed",
    "ModelTooLarge": "the dressed town would be too large",
    "NoAsset": "no asset has the name `{0}`",
    "NoDress": "the symbol `{0}` isn't dressed",
}
CODES = {
    "TooDeep": "256 generations stand above it, so a rule goes on without end",
    "Unmatched": "no rule of the symbol has a condition that holds",
    "Overflow": "a number leaves the range",
    "ZeroDivide": "something is divided by 0",
    "NegativeSize": "a size comes to less than 0",
    "FlatScope": "the scope is flat where a solid, a split or a component needs a size above 0",
    "PartNotPositive": "a size or a length in a split isn't above 0",
    "SubdivSum": "the sizes of a Subdiv don't fit into the scope, or leave a gap",
    "RepeatCount": "a Repeat would make more than 10,000 parts",
    "TooManyParts": "the splits and components of one shape make more than 10,000 parts",
    "TooManyChildren": "one shape has more than 4,096 children",
}
HELPS = {
    "TooDeep": "a condition that ends the recursion, and a rule for the rest: 1: row(n) : n > 0 -> tile row(n - 1) and 2: row(n) -> NIL",
    "Unmatched": "a last rule of the symbol, with a greater number and without a condition",
    "Overflow": "smaller numbers, or fewer decimals in divisors; a rule that doubles its numbers needs an end",
    "ZeroDivide": "a condition before it, which keeps the divisor from 0: a : Scope.sx > 0 -> ..",
    "NegativeSize": "a condition that keeps narrow shapes away: a : Scope.sx > 2 -> S(Scope.sx - 2, 1r, 1r) b",
    "FlatScope": 'depth before it: S(1r, 1r, 0.1) I("cube"); a face is flat along its Z, so there I("quad") draws it as it is; a lot is flat along its Y: S(1r, 6, 1r)',
    "PartNotPositive": "a rule before it for the shapes where the size comes to 0 or less: a : Scope.sx < 2 -> wall",
    "SubdivSum": "one size with an r, which takes what the others leave; and a rule before it for shapes that are too narrow: a : Scope.sx < 8 -> wall",
    "RepeatCount": 'a greater length, or two steps: Repeat("X", 100) { row } and in `row` the smaller one',
    "TooManyParts": "a symbol of its own for what is in the parts, with a rule that splits on",
    "TooManyChildren": "a symbol of its own for what is in the parts, with a rule that splits on",
}
ALONG = "a lot is flat along its Y, and a face along its Z"
SIZED = {"X": "S(3, 1r, 1r)", "Y": "S(1r, 3, 1r)", "Z": "S(1r, 1r, 0.3)"}
Help = Union[str, Callable[["re.Match[str]"], str]]


def sized(found: "re.Match[str]") -> str:
    axis = found["axis"]
    return f'a size along {axis} before the split: {SIZED[axis]} {found["split"]}("{axis}", ..) {{ .. }}; {ALONG}'


OF_RULES: Dict[
    str, List[Tuple[str, Help]]
] = {  # of a code, the help where a rule has this; the first one that is found
    "NegativeSize": [
        (
            r"\bS\s*\([^()]*,\s*-[^(),]*\)",
            "to go inwards from a face by d: T(0, 0, -d) S(1r, 1r, d); a size is never below 0",
        ),
    ],
    "FlatScope": [
        (r'\bI\s*\(\s*"(cube|shed|gable|hip)"', HELPS["FlatScope"]),
        (r'\b(?P<split>Subdiv|Repeat)\s*\(\s*"(?P<axis>[YZ])"', sized),
        (r"\bComp\s*\(", f'a body before it, as S(1r, 6, 1r) Comp("sidefaces") {{ wall }}; {ALONG}'),
        (
            r'\bI\s*\(\s*"quad"',
            'a quad stands upright, along X and Y, and a lot lies flat: S(1r, 0.1, 1r) I("cube") draws its ground',
        ),
        (r'\b(?P<split>Subdiv|Repeat)\s*\(\s*"(?P<axis>X)"', sized),
    ],
    "PartNotPositive": [
        (
            r'\bRepeat\s*\(\s*"(?P<axis>[XYZ])"\s*,\s*(0|-\s*\d+)(\.\d+)?\s*\)',
            lambda found: f'a length above 0, which is that of one part: Repeat("{found["axis"]}", 3) {{ .. }}',
        ),
        (
            r'\bSubdiv\s*\(\s*"[XYZ]"\s*,([^(){]*,)?\s*(0|-\s*\d+)(\.0+|r)?\s*[,)]',
            "sizes above 0: leave the part of size 0 out, and its body",
        ),
        (
            r'\bRepeat\s*\(\s*"[XYZ]"\s*,\s*(?P<name>[A-Za-z_]\w*)\s*\)',
            lambda found: f"`{found['name']}` above 0, or a rule before it for the shapes where it isn't: a : {found['name']} <= 0 -> wall",
        ),
    ],
}


def help_for(code: str, rules: Sequence[str]) -> str:
    """What helps against a fault, where one of the symbol's rules stands in these lines."""
    for pattern, text in OF_RULES.get(code, []):
        for rule in rules:
            found = re.search(pattern, rule, re.ASCII)
            if found:
                return text if isinstance(text, str) else text(found)
    return HELPS.get(code, "")
