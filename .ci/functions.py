"""The functions of the crates' sources: which have a contract of their own, and which stand for a trait's."""
import re
from dataclasses import dataclass
from pathlib import Path

TOP = Path(__file__).resolve().parent.parent
# crates that hold tests alone
OF_TESTS = ("cga_calls", "cga_tests")
FUNCTION = re.compile(r"(\s*)(?:pub(?:\([a-z]+\))? )?(?:const )?fn (\w+)")


@dataclass(frozen=True)
class Function:
    crate: str
    file: str
    name: str
    has_contract: bool
    # the trait and the type that it is written for; empty where it is for none
    of_trait: str


def without_comments(text):
    return re.sub(r"//[^\n]*", "", text)


def head_end(text, at):
    """Where a function's head ends: at its body, its first clause or a semicolon, outside of round and square brackets."""
    depth = 0
    for place in range(at, len(text)):
        depth += (text[place] in "([") - (text[place] in ")]")
        if depth == 0 and (text[place] in "{;" or re.match(r"\b(?:requires|ensures)\b", text[place : place + 9])):
            return place
    return len(text)


def has_contract(text, at):
    return text[head_end(text, at)] not in "{;"


def sources():
    return sorted(path for path in TOP.glob("crates/*/src/**/*.rt") if path.relative_to(TOP).parts[1] not in OF_TESTS)


def functions_of(path):
    """Those of a file but its tests."""
    text = without_comments(path.read_text(encoding="utf-8"))
    place, impl, is_test = 0, "", False
    for line in text.split("\n"):
        if line.startswith("impl"):
            found = re.match(r"impl(?:<.*?>)? (\S.*?) for (\w+)", line)
            impl = f"{found.group(1)} for {found.group(2)}" if found else ""
        elif line.startswith("}"):
            impl = ""
        is_test = is_test or line.strip() == "#[test]"
        match = FUNCTION.match(line)
        if match:
            if not is_test:
                crate, file = path.relative_to(TOP).parts[1], "/".join(path.relative_to(TOP).parts[3:])
                yield Function(crate, file, match.group(2), has_contract(text, place + match.end()), impl)
            is_test = False
        place += len(line) + 1


def all_functions():
    return [function for path in sources() if path.name != "tests.rt" for function in functions_of(path)]


def words_in_sources(word):
    """The files in which a word stands, comments aside."""
    pattern = re.compile(rf"\b{word}\b")
    return [
        str(path.relative_to(TOP))
        for path in sorted(TOP.glob("crates/*/src/**/*.rt"))
        if pattern.search(without_comments(path.read_text(encoding="utf-8")))
    ]
