"""The rules of a file as rules of a script: a symbol for each form, look and depth in which it is met."""
from fractions import Fraction
from pathlib import Path
from typing import Dict, List, Optional, Tuple

from .carried import Carried
from .context import MOST_PARAMETERS, Context, Line
from .forms import ROOFS, State, drawn
from .handlers import handle
from .look import PLAIN, Look
from .lost import Lost, Remarks
from .meshes import Meshes
from .names import Names
from .narrow import guards
from .traits import Traits, names_in
from .tree import (
    Attribute,
    Body,
    Cases,
    Chances,
    Declaration,
    Function,
    Operation,
    Rule,
    Split,
    Symbol,
    Value,
)
from .values import Known, number_text
from .walk import Walk, items_of

START = "@StartRule"
MOST_VARIANTS = 6
TOUCHES = "a flat shape that only touches a box isn't answered so: give it a depth before its symbol, by S(1r, 1r, 0.1)"
COLUMNS = {"geometry.area": "plan or side", "geometry.volume": "volume", "scope.sy": "top"}
LEAF_FORMS = {"top": "face", "edge": "edge"}
Variant = Tuple[str, State]


class Port:
    """A whole file. `lines` has the rules of the script, in the order of the file."""

    handle = staticmethod(handle)

    def __init__(self, path: Path, declared: List[Declaration]) -> None:
        self.declared = declared
        self.attributes = {one.name: one for one in declared if isinstance(one, Attribute)}
        functions = {one.name: one for one in declared if isinstance(one, Function)}
        self.rules = {one.name: one for one in reversed(declared) if isinstance(one, Rule)}
        self.known = Known(self.attributes, functions)
        self.remarks, self.symbols, self.meshes = Remarks(), Names(), Meshes(path)
        self.carried = Carried(self.known, self.rules)
        self.traits = Traits(self.rules, self.carried.names, self.carried.behind)
        self.is_crowded = any(self.handed(name) != self.traits.needs(name) for name in self.rules)
        self.variants: Dict[Variant, str] = {}
        self.waiting: List[Variant] = []
        self.lines: Dict[Variant, List[Line]] = {}
        self.ending: List[Line] = []  # rules of leaves
        self.looks: Dict[str, Look] = {}  # of symbols that draw
        self.leaves: Dict[Tuple[str, State], str] = {}
        self.rises: Dict[str, Tuple[Fraction, str]] = {}

    # ---- symbols

    def start(self) -> Rule:
        """The rule of lots: the one that is marked so, else `Lot`, else the first that no other names, else the first."""
        marked = [rule for rule in self.rules.values() if START in rule.annotations]
        marked += [rule for rule in self.rules.values() if rule.name == "Lot" and not rule.parameters]
        rules = sorted(self.rules.values(), key=lambda rule: rule.line)
        named = {child.name for own in self.traits.own.values() for child in own.children}
        return (marked or [rule for rule in rules if rule.name not in named and not rule.parameters] or rules)[0]

    def variant(self, name: str, state: State) -> str:
        """The symbol of a rule in a state, of which what nothing below reads is left out."""
        traits = self.traits
        form = state.form if name in traits.forms else LEAF_FORMS.get(state.form, state.form)
        look = state.look if name in traits.shows else PLAIN
        state = State(form, state.rise, state.is_deep and name in traits.depths, look)
        if (name, state) not in self.variants:
            others = [one for one in self.variants if one[0] == name]
            if len(others) >= MOST_VARIANTS:
                return self.variants[others[0]]
            self.variants[name, state] = self.symbols.new(name)
            self.waiting.append((name, state))
        return self.variants[name, state]

    def child(self, walk: Walk, item: Symbol) -> str:
        """A child with its arguments, and with the values that are handed on to it."""
        if item.name not in self.rules:
            return self.leaf(item.name, walk.state, item.name)
        wanted = self.rules[item.name].parameters
        if len(wanted) != len(item.args):
            raise Lost(f"{item.name} has {len(wanted)} parameters")
        symbol = self.variant(item.name, walk.state)
        needed = self.handed(item.name)
        args = [walk.writer.number(arg) for arg in item.args] + [self.given(walk, name) for name in needed]
        return Line(symbol, args, "", []).head()

    def handed(self, name: str) -> List[str]:
        """The values that a rule gets beside its own parameters, as far as there is room."""
        return self.traits.needs(name)[: max(0, MOST_PARAMETERS - len(self.rules[name].parameters))]

    def given(self, walk: Walk, name: str) -> str:
        if name in walk.here:
            return walk.here[name]
        if name not in self.attributes:
            return "0"
        return self.settled_text(self.attributes[name].value)

    def settled_text(self, value: Value) -> str:
        """A value as it stands in the file, where it can't be followed."""
        found = self.known.settled(value, True)
        return number_text(self.known.code(found) if isinstance(found, str) else found or Fraction(0)).text

    def leaf(self, name: str, state: State, wanted: str) -> str:
        """The symbol that draws a shape as it is."""
        form = LEAF_FORMS.get(state.form, state.form)
        state = State(form, state.rise if form in (*ROOFS, "mesh") else "", False, state.look)
        if (name, state) not in self.leaves:
            symbol = self.symbols.new(wanted)
            self.leaves[name, state] = symbol
            self.ending += self.leaf_lines(symbol, state)
            self.looks[symbol] = state.look
        return self.leaves[name, state]

    def leaf_lines(self, symbol: str, state: State) -> List[Line]:
        if state.form == "mesh":
            self.meshes.symbols[symbol] = state.rise
            return [Line(symbol, [], "", [('I("cube")', None)])]
        if state.form in ROOFS and state.rise:
            high = [f'S(1r, {state.rise} * Scope.{side}, 1r) I("{state.form}")' for side in ("sz", "sx")]
            if state.form == "shed":
                return [Line(symbol, [], "", [(high[0], None)])]
            return [
                Line(symbol, [], "Scope.sx >= Scope.sz", [(high[0], None)]),
                Line(symbol, [], "", [(high[1], None)]),
            ]
        solid = f'I("{state.form}")' if state.form in ROOFS else drawn(state) or "NIL"
        return [Line(symbol, [], "", [(solid, None)])]

    def formed(self, context: Context, state: State) -> str:
        """The leaf of a roof or a mesh that a rule itself draws."""
        ending = "mesh" if state.form == "mesh" else "roof"
        return self.leaf(context.symbol, state, f"{context.symbol}_{ending}")

    # ---- what else rules say

    def rise(self, name: str, value: Fraction, why: str) -> str:
        """An attribute of the script alone."""
        if name not in self.rises:
            self.rises[name] = value, why
        return self.known.names.of(name)

    def column(self, item: Operation, context: Context) -> str:
        """The column of tools/table that comes near to a report's number."""
        names = {name.partition("(")[0] for arg in item.args[1:] for name in names_in(arg)}
        column = next((COLUMNS[name] for name in COLUMNS if name in names), "solids")
        if self.traits.own[context.rule].children:
            return f"tools/table --by lot has the column {column}, of all that a lot draws"
        return f"tools/table --by symbol has the column {column} of {context.symbol}"

    def guards(self, walk: Walk, item: Split, condition: str, text: str) -> bool:
        """Whether the rule itself takes the narrow shapes of a split; it does where the split is all that it has."""
        rule_items = walk.context.whole
        if rule_items is None or rule_items[-1:] != [item]:
            return False
        walk.context.narrow.append((condition, text))
        return True

    # ---- rules

    def work(self) -> None:
        """Writes the rules of all symbols that lots come to."""
        first = self.start()
        self.variant(first.name, State("ground"))
        while self.waiting:
            variant = self.waiting.pop(0)
            self.lines[variant] = self.rule_lines(self.rules[variant[0]], variant)

    def rule_lines(self, rule: Rule, variant: Variant) -> List[Line]:
        here, parameters = {}, []
        for name in [*rule.parameters, *self.handed(rule.name)]:
            parameters.append(self.parameter(rule.name, name))
            here[name] = parameters[-1]
        context = Context(self, rule.name, self.variants[variant], parameters, here, variant[1])
        lines = self.body_lines(context, rule.body, "")
        return lines + context.lines

    def parameter(self, rule: str, name: str) -> str:
        """The name of a parameter, which no attribute has."""
        is_free = name not in self.attributes or name in self.carried.names and not self.is_crowded
        return self.known.names.of(name if is_free else f"{name}_")

    def body_lines(self, context: Context, body: Body, condition: str) -> List[Line]:
        """A rule of the script for each case, up to one that always holds."""
        if not isinstance(body, Cases):
            return self.plain_lines(context, body, condition)
        found: List[Line] = []
        for asked, inner in body.cases:
            settled = Fraction(1) if asked is None else self.known.settled(asked)
            text = self.asked(context, asked, inner.line, condition) if settled is None else ""
            if settled != 0 and text is not None:
                found += self.body_lines(context, inner, " and ".join(part for part in (condition, text) if part))
            if settled is not None and settled != 0:
                break
        return found

    def asked(self, context: Context, asked: Value, line: int, condition: str) -> Optional[str]:
        """The text of a condition; nothing where it has no counterpart."""
        if "touches" in names_in(asked):
            self.remarks.nearly(line, "touches", TOUCHES)
        try:
            return context.writer(context.here, context.state.form).condition(asked, bool(condition))
        except Lost as fault:
            self.remarks.lost(line, "case", f"{fault}; this case is left out")
            return None

    def plain_lines(self, context: Context, body: Body, condition: str) -> List[Line]:
        """The rule of one case, behind those for shapes that are too narrow for its split."""
        context.narrow, context.whole = [], items_of(body)
        first = guards(Walk(context, context.state, context.here), context.whole)
        alternatives = self.alternatives(context, body)
        all_guards = first + context.narrow
        context.whole = None
        lines = [
            Line(context.symbol, context.parameters, joined(condition, asked), [(text, None)])
            for asked, text in all_guards
        ]
        lines.append(Line(context.symbol, context.parameters, condition, alternatives))
        return [lines[0]._replace(comments=self.remarks.taken()), *lines[1:]]

    def alternatives(self, context: Context, body: Body) -> List[Tuple[str, Optional[Fraction]]]:
        if not isinstance(body, Chances):
            return [(self.text(context, body, context.state, context.here), None)]
        shares = self.shares([share for share, _ in body.shares])
        texts = [self.body_text(context, inner, context.state, context.here) for _, inner in body.shares]
        return [(text, share) for text, share in zip(texts, shares) if share > 0] or [("NIL", None)]

    def shares(self, shares: List[Optional[Value]]) -> List[Fraction]:
        """Probabilities that add up to 1, with six decimals; one that isn't known before a run is taken as it stands in
        the file."""
        found = [Fraction(0) if share is None else as_share(self.known.settled(share, True)) for share in shares]
        left = 1 - sum(found)
        found[-1] = left if shares[-1] is None else found[-1] + left
        return [max(Fraction(0), share) for share in found]

    def text(self, context: Context, body: Body, state: State, here: Dict[str, str]) -> str:
        walk = Walk(context, state, here)
        walk.items(items_of(body))
        return walk.text()

    def body_text(self, context: Context, body: Optional[Body], state: State, here: Dict[str, str]) -> str:
        """A body within another: its items, or a symbol of its own where it has cases or percentages."""
        if body is None:
            return "NIL"
        if not isinstance(body, (Cases, Chances)):
            return self.text(context, body, state, here)
        symbol = context.further("case")
        inner = Context(self, context.rule, symbol, context.parameters, {**context.here, **here}, state)
        context.lines += self.body_lines(inner, body, "") + inner.lines
        return inner.called(inner.symbol)


def joined(first: str, second: str) -> str:
    return " and ".join(
        f"[ {part} ]" if " or " in part and "[" not in part else part for part in (first, second) if part
    )


def as_share(value: object) -> Fraction:
    return Fraction(round(value * 10**4), 10**6) if isinstance(value, Fraction) else Fraction(0)
