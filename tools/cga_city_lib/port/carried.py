"""Attributes that are handed on as arguments: those that each lot has for itself, and those that `set` changes."""
from typing import Dict, Iterator, List, Set

from .tree import (
    Attribute,
    Binary,
    Bracket,
    Call,
    Cases,
    Chance,
    Chances,
    Choice,
    Name,
    Operation,
    Rule,
    Split,
    Taken,
    Unary,
)
from .tree import Value
from .values import Known

OF_LOT = ("geometry.", "initialShape.", "seedian")
DEEPEST = 8  # functions in functions


def parts_of(known: Known, value: object, depth: int = 0) -> Iterator[object]:
    """A value and all in it, with what functions of the file give."""
    yield value
    if isinstance(value, Call) and value.name in known.functions and depth < DEEPEST:
        yield from parts_of(known, known.called(value), depth + 1)
    elif isinstance(value, Name) and value.name in known.functions and depth < DEEPEST:
        yield from parts_of(known, known.functions[value.name].value, depth + 1)
    elif isinstance(value, (Call, Unary, Binary, Choice, Chance, list, tuple)):
        for part in value:
            yield from parts_of(known, part, depth)


def is_of_lot(known: Known, attribute: Attribute) -> bool:
    """Whether a value is another for each lot, or depends on conditions."""
    if known.settled(attribute.value) is not None:
        return False
    return any(
        isinstance(part, (Chance, Choice))
        or isinstance(part, Call)
        and part.name == "rand"
        or isinstance(part, Name)
        and part.name.startswith(OF_LOT)
        for part in parts_of(known, attribute.value)
    )


def operations(part: object) -> Iterator[Operation]:
    """All operations in rules, bodies and items."""
    if isinstance(part, Operation):
        yield part
    elif isinstance(part, (list, tuple)):
        for one in part:
            yield from operations(one)
    elif (
        isinstance(part, (Rule, Cases, Chances, Bracket, Split, Taken))
        or hasattr(part, "items")
        or hasattr(part, "body")
    ):
        for one in vars(part).values():
            yield from operations(one) if not isinstance(one, str) else ()


class Carried:
    """The names, those first on which others rest; and what each attribute's value rests on."""

    def __init__(self, known: Known, rules: Dict[str, Rule]) -> None:
        self.known = known
        self.own = {name: self.names_of(attribute.value) for name, attribute in known.attributes.items()}
        of_lot = [name for name, attribute in known.attributes.items() if is_of_lot(known, attribute)]
        self.names: List[str] = []
        for name in [*of_lot, *self.set_in(rules)]:
            self.put(name, {*of_lot})
        self.behind = {name: self.rests_on(name) for name in self.own}

    def names_of(self, value: Value) -> Set[str]:
        return {part.name for part in parts_of(self.known, value) if isinstance(part, Name)}

    def set_in(self, rules: Dict[str, Rule]) -> List[str]:
        """The attributes that `set` changes, but for texts, which are no numbers."""
        found = []
        for operation in operations(list(rules.values())):
            name = getattr(operation.args[0], "name", "") if operation.name == "set" and operation.args else ""
            attribute = self.known.attributes.get(name)
            if attribute and not isinstance(self.known.settled(attribute.value, True), str):
                found.append(name)
        return found

    def put(self, name: str, of_lot: Set[str]) -> None:
        """Adds a name behind those that its value rests on."""
        if name not in self.names:
            for other in sorted(self.own[name] & of_lot - {name}):
                if name not in self.own[other]:
                    self.put(other, of_lot)
            self.names.append(name)

    def rests_on(self, name: str) -> Set[str]:
        """All that a value rests on, but what stands behind a value that is handed on."""
        found: Set[str] = set()
        ahead = set(self.own[name])
        while ahead:
            found |= ahead
            ahead = {more for one in ahead if one not in self.names for more in self.own.get(one, ())} - found
        return found

    def needed(self, names: List[str]) -> List[str]:
        """These, and those that they rest on, in order."""
        wanted = set(names)
        for _ in self.names:
            wanted |= {other for name in wanted for other in self.behind.get(name, ()) if other in self.names}
        return [name for name in names if name not in self.names] + [name for name in self.names if name in wanted]
