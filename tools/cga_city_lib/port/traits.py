"""What the shapes of a symbol and all below read of the shape that they come from: its look, its form, its depth, and values
that a script hands on as arguments."""
from typing import Dict, Iterator, List, NamedTuple, Set, Tuple

from .tree import (
    Body,
    Bracket,
    Cases,
    Chances,
    Binary,
    Call,
    Chance,
    Choice,
    Item,
    Name,
    Operation,
    Rule,
    Split,
    Symbol,
    Taken,
    Unary,
    Value,
)

FORMS = ("extrude", "comp", "offset", "setback", "taper")  # these read the form, and so do roofs
FILLS = ("i", "insert")  # these read the depth, and so do primitives
SILENT = ("report", "print", "label")  # what these are given makes no shape another one
INDICES = ("split.index", "split.total")


class Child(NamedTuple):
    name: str
    is_coloured: bool  # a colour was set before it
    is_part: bool  # it stands in a split


class Reads(NamedTuple):
    """What a rule itself says."""

    children: List[Child]
    operations: Set[str]
    names: Set[Tuple[str, bool]]  # what its values name, each with whether it stands in a split
    shows: bool  # it draws what has no colour of its own


def names_in(value: object) -> Iterator[str]:
    if isinstance(value, Name):
        yield value.name
    elif isinstance(value, (Call, Unary, Binary, Choice, Chance, list, tuple)):
        for part in value:
            yield from names_in(part)


class Look:
    """Goes through the body of a rule."""

    def __init__(self) -> None:
        self.found = Reads([], set(), set(), False)
        self.shows = False

    def values(self, values: List[Value], is_part: bool) -> None:
        self.found.names.update((name, is_part) for name in names_in(values))

    def body(self, body: Body, is_coloured: bool, is_part: bool) -> None:
        if isinstance(body, Cases):
            for condition, inner in body.cases:
                self.values([condition], is_part)
                self.body(inner, is_coloured, is_part)
        elif isinstance(body, Chances):
            for _, inner in body.shares:
                self.body(inner, is_coloured, is_part)
        else:
            self.items(body.items, is_coloured, is_part)

    def items(self, items: List[Item], is_coloured: bool, is_part: bool) -> None:
        makes = False
        for item in items:
            is_coloured = is_coloured or isinstance(item, Operation) and item.name == "color"
            makes = makes or not isinstance(item, Operation)
            self.item(item, is_coloured, is_part)
        self.shows = self.shows or not is_coloured and (not makes or isinstance(items[-1], Operation))

    def item(self, item: Item, is_coloured: bool, is_part: bool) -> None:
        if isinstance(item, (Symbol, Operation, Taken)) and item.name not in SILENT:
            self.values(item.args[item.name == "set" :], is_part)
        if isinstance(item, Symbol):
            self.found.children.append(Child(item.name, is_coloured, is_part))
        elif isinstance(item, (Operation, Taken)):
            self.found.operations.add(item.name)
        if isinstance(item, Bracket):
            self.items(item.items, is_coloured, is_part)
        elif isinstance(item, Taken):
            for selected in item.selected:
                self.body(selected.body, is_coloured, is_part)
        elif isinstance(item, Split):
            self.parts(item.parts, is_coloured)

    def parts(self, parts: list, is_coloured: bool) -> None:
        for part in parts:
            self.values([part.size], False)
            self.parts(part.repeated, is_coloured)
            if part.body is not None:
                self.body(part.body, is_coloured, True)


def reads_of(rule: Rule) -> Reads:
    look = Look()
    look.body(rule.body, False, False)
    return look.found._replace(shows=look.shows)


class Traits:
    """By the name of a rule, what is read in it and in all below."""

    def __init__(self, rules: Dict[str, Rule], carried: List[str], behind: Dict[str, Set[str]]) -> None:
        """`behind` has for an attribute all names that its value rests on."""
        self.own = {name: reads_of(rule) for name, rule in rules.items()}
        self.behind, self.carried = behind, [*INDICES, *carried]
        self.shows = self.spread(self.showing(), lambda child: not child.is_coloured)
        self.forms = self.spread(self.with_operation(FORMS, "roof"), lambda child: True)
        self.depths = self.spread(self.with_operation(FILLS, "primitive"), lambda child: True)
        self.needed = {name: self.needing(name) for name in self.carried}

    def showing(self) -> Set[str]:
        """The rules that draw what has no colour of its own, or make leaves of it."""
        return {
            name
            for name, own in self.own.items()
            if own.shows or any(child.name not in self.own and not child.is_coloured for child in own.children)
        }

    def with_operation(self, names: Tuple[str, ...], start: str) -> Set[str]:
        return {
            rule
            for rule, own in self.own.items()
            if any(name in names or name.startswith(start) for name in own.operations)
        }

    def needing(self, name: str) -> Set[str]:
        """The rules that read a carried value, or have a child that needs it from them."""
        is_index = name in INDICES
        first = {
            rule
            for rule, own in self.own.items()
            if any(name in {read, *self.behind_of(read)} and not (is_index and is_part) for read, is_part in own.names)
        }
        return self.spread(first, lambda child: not (is_index and child.is_part))

    def behind_of(self, name: str) -> Set[str]:
        """What a rule reads behind a value that it reads: nothing behind one that is handed on itself."""
        return set() if name in self.carried else self.behind.get(name, set())

    def spread(self, found: Set[str], passes) -> Set[str]:
        """These rules, and those above that hand on to them; a symbol without a rule shows its look."""
        while True:
            more = {
                name
                for name, own in self.own.items()
                if name not in found and any(passes(child) and child.name in found for child in own.children)
            }
            if not more:
                return found
            found = found | more

    @staticmethod
    def bodies_read(bodies: List[Body]) -> Reads:
        """What some bodies say, each as a rule's."""
        look = Look()
        for body in bodies:
            look.body(body, False, False)
        return look.found

    def needs(self, name: str) -> List[str]:
        return [value for value in self.carried if name in self.needed[value]]
