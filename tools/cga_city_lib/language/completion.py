"""What can stand at a place of a script."""
import re
from typing import Dict, Iterator, List

from ..script import rule_of
from .names import Found, names_of, parameters_of
from .text import Document
from .words import COMMANDS, IN_BLOCK, ITEMS, PARTS, TEXTS, VALUES

KINDS = {"keyword": 14, "item": 3, "symbol": 7, "attribute": 6, "parameter": 6, "lot": 18, "asset": 17, "text": 12}
LAST_NUMBER = 999999


def entry(label: str, kind: str, detail: str = "", text: str = "") -> Dict:
    found = {"label": label, "kind": KINDS[kind], "detail": detail}
    return {**found, "insertText": text} if text else found


def completions(document: Document, at: int, byte: int) -> List[Dict]:
    """The entries for the place behind a byte of a line."""
    before = document.line(at)[: byte - 1]
    if "#" in before:
        return []
    quoted = re.search(r'"(\w*)$', before)
    if before.count('"') % 2 and quoted:
        return list(texts(before[: quoted.start()].rstrip()))
    before = re.sub(r"\w+$", "", before)
    if re.search(r"\bScope\s*\.\s*$", before):
        return [entry(part, "attribute", "Scope." + part) for part in PARTS]
    command = document.block_of(at)
    if command is not None and command.words[0] not in ("rules", "city"):
        return []
    if not before.strip():
        return list(first_words(document, command))
    return list(in_line(document, at, before))


def texts(before: str) -> Iterator[Dict]:
    """The words in quotes that fit behind this."""
    for pattern, words in TEXTS:
        if re.search(pattern, before):
            yield from (entry(word, "text") for word in words)
            return


def first_words(document: Document, command) -> Iterator[Dict]:
    """The words that begin a line."""
    if command is None:
        yield from (entry(word, "keyword", *COMMANDS[word]) for word in commands_outside())
        return
    own = IN_BLOCK + (["lot", "order"] if command.words[0] == "city" else [])
    yield from (entry(word, "keyword", COMMANDS[word][1]) for word in own)
    yield entry(f"{next_number(document)}: ", "keyword", "a rule")


def commands_outside() -> List[str]:
    return [word for word in COMMANDS if word not in ("PRIORITY", "end")]


def next_number(document: Document) -> int:
    """The next whole ten behind all numbers of rules."""
    numbers = [rule[0] for rule in map(rule_of, document.lines) if rule and rule[0] < LAST_NUMBER - 10]
    return (max(numbers, default=0) // 10 + 1) * 10


def in_line(document: Document, at: int, before: str) -> Iterator[Dict]:
    """What goes on in a line that has begun."""
    found = names_of(document)
    head = before.split()[0]
    if head in ("unlot", "print", "model"):
        yield from named(found, "lot")
    elif head in ("lot", "priority", "undress", "dress"):
        yield from named(found, "symbol")
        yield from named(found, "asset") if head == "dress" else ()
    elif head == "attr":
        yield from named(found, "attribute")
    elif "->" in before and not is_value(before):
        yield from (entry(word, "item", *ITEMS[word][1:], text=form(word)) for word in ITEMS)
        yield from calls(document, found)
    elif ":" in before:
        yield from (entry(name, "parameter") for name in parameters_of(document.line(at)))
        yield from named(found, "attribute")
        yield from (entry(word, "keyword", VALUES[word][1]) for word in VALUES)


def is_value(before: str) -> bool:
    """Whether a round bracket is open."""
    behind = before.rpartition("->")[2]
    return behind.count("(") > behind.count(")")


def form(word: str) -> str:
    """The word, with its bracket where it has one."""
    return word + "(" if "(" in ITEMS[word][0] else word


def named(found: List[Found], kind: str) -> Iterator[Dict]:
    names = dict.fromkeys(one.name for one in found if one.kind == kind and one.says)
    yield from (entry(name, kind) for name in names)


def calls(document: Document, found: List[Found]) -> Iterator[Dict]:
    """The symbols that have rules, with their parameters."""
    heads: Dict[str, List[str]] = {}
    for one in found:
        if one.kind == "symbol" and one.says:
            heads.setdefault(one.name, parameters_of(document.line(one.line)))
    for name, parameters in heads.items():
        yield entry(
            name, "symbol", f"{name}({', '.join(parameters)})" if parameters else "", name + "(" * bool(parameters)
        )
