"""What stands at a place: a word of the language, the rules of a symbol with their fate, an attribute, a lot."""
from typing import Dict, List, Optional

from ..causes import CODES
from ..script import Rule, rule_in, words_of
from .fates import Fates, fate_of
from .names import Found, at_place, names_of
from .text import Document
from .words import said_of

MOST_RULES = 12


def hover(document: Document, at: int, byte: int, known: Fates) -> Optional[Dict]:
    """The answer to a hover; nothing where there is nothing to tell."""
    found = at_place(document, at, byte)
    token = document.token_at(at, byte)
    text = of_name(document, found[0], known) if found else said_of(token[1]) if token else ""
    if not text or token is None:
        return None
    place = document.range(at, token[0], token[0] + len(token[1]))
    return {"contents": {"kind": "markdown", "value": text}, "range": place}


def of_name(document: Document, found: Found, known: Fates) -> str:
    if found.kind == "symbol":
        return of_symbol(document, found.name, known)
    if found.kind == "attribute":
        return of_attribute(document, found.name)
    if found.kind == "parameter":
        return f"`{found.name}` is a parameter of this rule"
    said = [one for one in names_of(document) if one.says and one.is_same(found)]
    return f"```\n{document.line(said[0].line).strip()}\n```" if said else ""


def rules_of(document: Document, symbol: str) -> List[Rule]:
    """The rules of a symbol as they are tried; of two with one number the later one counts."""
    rules = {rule.number: rule for rule in map(rule_in, document.lines) if rule and rule.symbol == symbol}
    return [rules[number] for number in sorted(rules)]


def of_symbol(document: Document, symbol: str, known: Fates) -> str:
    """Its rules, each with how many shapes took it, and what came to nothing."""
    rules = rules_of(document, symbol)
    if not rules:
        return f"no rule has the symbol `{symbol}`"
    lines = {rule.number: line for line in document.lines for rule in [rule_in(line)] if rule}
    told = [f"`{symbol}` has {len(rules)} rule{'s' * (len(rules) > 1)}, tried in this order:", ""]
    for rule in rules[:MOST_RULES]:
        fate = fate_of(rule, known, len(rules) == 1)
        told.append(f"- `{lines[rule.number].partition('#')[0].strip()}`" + (f": {fate}" if fate else ""))
    told += [f"- and {len(rules) - MOST_RULES} more"] if rules[MOST_RULES:] else []
    for (name, code), many in sorted(known.faults.items()):
        if name == symbol and many:
            told += ["", f"{many:,} came to nothing: {code}, {CODES.get(code, code)}"]
    return "\n".join(told)


def of_attribute(document: Document, name: str) -> str:
    """Its value, and how many rules read it."""
    said = [one for one in names_of(document) if one.kind == "attribute" and one.name == name]
    declared = [one for one in said if one.says]
    if not declared:
        return f"`{name}` is neither a parameter nor an attribute"
    values = [one for one in said if words_of(document.line(one.line))[:1] == ["attr"]]
    rules = {one.line for one in said if one not in values}
    many = f"{len(rules)} rule{'s' * (len(rules) != 1)} read{'s' * (len(rules) == 1)} it"
    return f"```\n{document.line(values[-1].line).strip()}\n```\n{many}"
