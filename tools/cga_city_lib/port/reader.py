"""The declarations of a CGA file, and the successors of its rules, read from tokens."""
from typing import Iterator, List, Tuple

from .tokens import Token
from .tree import (
    Attribute,
    Body,
    Bracket,
    Cases,
    Chances,
    Declaration,
    Function,
    Item,
    Items,
    Nothing,
    Operation,
    Part,
    Rule,
    Selected,
    Split,
    Symbol,
    Taken,
    Unread,
)
from .values_read import Unreadable, Values, written

HEADS = ("version", "import", "attr", "const", "style", "extension")
OPERATIONS = set(
    "t s r i center color texture set report print extrude offset setback split comp taper translate rotate scale"
    " rotateScope rotateUV translateUV scaleUV tileUV normalizeUV deleteUV setupProjection projectUV alignScopeToAxes"
    " alignScopeToGeometry alignScopeToGeometryBBox setPivot mirror mirrorScope reverseNormals setNormals softenNormals"
    " cleanupGeometry reduceGeometry convexify rectify envelope inline resetGeometry deleteHoles insert insertAlongUV"
    " scatter shapeL shapeU shapeO footprint innerRectangle innerRect rollyourown primitiveQuad primitiveDisk"
    " primitiveCube primitiveSphere primitiveCylinder primitiveCone roofGable roofHip roofPyramid roofShed roofRidge"
    " label trim inscribe union subtract intersect modify polygon push pop".split()
)


class Reader(Values):
    """Reads the successor of a rule."""

    def body(self) -> Body:
        line = self.line()
        if self.next() == "case":
            return self.cases(line)
        return self.chances(line) if self.is_chance() else Items(self.items(), line)

    def cases(self, line: int) -> Cases:
        found = []
        while self.takes("case"):
            condition = self.value()
            self.need(":")
            found.append((condition, self.body()))
        if self.takes("else"):
            self.need(":")
            found.append((None, self.body()))
        return Cases(found, line)

    def is_chance(self) -> bool:
        """Whether a percentage with its colon comes."""
        if self.kind() != "number" and not (self.kind() == "word" and self.next(1) == "%") and self.next() != "(":
            return False
        before = self.at
        try:
            self.value()
            return self.is_percentage()
        except Unreadable:
            return False
        finally:
            self.at = before

    def chances(self, line: int) -> Chances:
        found = []
        while self.is_chance():
            share = self.value()
            self.at += 2
            found.append((share, self.body_of_chance()))
        if self.takes("else"):
            self.need(":")
            found.append((None, self.body()))
        return Chances(found, line)

    def body_of_chance(self) -> Body:
        line = self.line()
        return self.cases(line) if self.next() == "case" else Items(self.items(), line)

    def items(self) -> List[Item]:
        found: List[Item] = []
        while (
            self.at < len(self.tokens) and self.next() not in ("|", "}", "]", "case", "else") and not self.is_chance()
        ):
            found.append(self.item())
        return found

    def item(self) -> Item:
        line = self.line()
        if self.takes("["):
            inner = self.items()
            self.need("]")
            return Bracket(inner, line)
        if self.kind() != "word":
            raise Unreadable(f"`{self.next()}` stands among the items of a successor")
        return self.named(line)

    def named(self, line: int) -> Item:
        first = self.at
        name = self.take().text
        if name == "NIL":
            return Nothing(line)
        args = self.arguments()
        if self.next() == "{":
            item = self.split(args, line) if name == "split" else Taken(name, args, self.selected(), line)
            item.written = written(self.tokens[first : self.at])
            return item
        if name in OPERATIONS or name.startswith(("primitive", "roof")):
            return Operation(name, args, line, written(self.tokens[first : self.at]))
        self.takes(".")
        return Symbol(name, args, line)

    def split(self, args: list, line: int) -> Split:
        if not args or getattr(args[0], "name", "") not in ("x", "y", "z"):
            raise Unreadable("a split takes x, y or z")
        parts = self.parts()
        if self.takes("*"):
            parts = [Part(None, None, parts, line)]
        return Split(args[0].name, parts, line)

    def parts(self) -> List[Part]:
        self.need("{")
        found = [self.part()]
        while self.takes("|"):
            found.append(self.part())
        self.need("}")
        return found

    def part(self) -> Part:
        line = self.line()
        if self.next() == "{":
            inner = self.parts()
            self.takes("*")
            return Part(None, None, inner, line)
        size = self.value()
        self.need(":")
        return Part(size, self.body(), [], line)

    def selected(self) -> List[Selected]:
        self.need("{")
        found = [self.one_selected()]
        while self.takes("|"):
            found.append(self.one_selected())
        self.need("}")
        return found

    def one_selected(self) -> Selected:
        """A selector and a body, or a body alone."""
        first = self.at
        while self.next() not in (":", "=", "|", "}", "{", "["):
            self.take()
        if self.next() not in (":", "="):
            self.at = first
            return Selected("", self.body(), False)
        selector, sign = written(self.tokens[first : self.at]), self.take().text
        return Selected(selector, self.body(), sign == "=")


def closing(tokens: List[Token], at: int) -> int:
    """The place behind the bracket that closes the one at this place."""
    depth = 0
    while at < len(tokens):
        depth += (tokens[at].text in "([{") - (tokens[at].text in ")]}") if tokens[at].kind == "sign" else 0
        at += 1
        if depth <= 0:
            break
    return at


def is_head(tokens: List[Token], at: int) -> bool:
    """Whether a declaration begins here."""
    if tokens[at].kind != "word":
        return tokens[at].text == "@"
    if tokens[at].text in HEADS:
        return True
    behind = closing(tokens, at + 1) if at + 1 < len(tokens) and tokens[at + 1].text == "(" else at + 1
    return behind < len(tokens) and tokens[behind].text in ("-->", "=")


def ends(tokens: List[Token], at: int) -> int:
    """The place behind the declaration that begins here; annotations belong to what stands behind them."""
    begun, depth, at = at, 0, at + 1
    if tokens[begun].text == "@":
        return closing(tokens, at + 1) if at + 1 < len(tokens) and tokens[at + 1].text == "(" else at + 1
    at += tokens[begun].text in ("attr", "const", "style")
    while at < len(tokens) and (depth or not is_head(tokens, at)):
        depth += (tokens[at].text in "([{") - (tokens[at].text in ")]}") if tokens[at].kind == "sign" else 0
        at += 1
    return at


def pieces(tokens: List[Token]) -> Iterator[Tuple[List[str], List[Token]]]:
    """The tokens of each declaration, with its annotations."""
    at, annotations = 0, []
    while at < len(tokens):
        until = ends(tokens, at)
        piece, at = tokens[at:until], until
        if piece[0].text == "@":
            annotations.append(written(piece))
        else:
            yield annotations, piece
            annotations = []


def declared(annotations: List[str], piece: List[Token]) -> Declaration:
    """The declaration of some tokens."""
    reader, line, head = Reader(piece), piece[0].line, piece[0].text
    if head in HEADS and head not in ("attr", "const"):
        imports = (piece[1].text, piece[3].text[1:-1]) if head == "import" and len(piece) > 3 else ()
        reasons = {"version": "", "import": "the file isn't there, or its values aren't taken over"}
        return Unread(written(piece), reasons.get(head, "styles are sets of values: set the attributes"), line, imports)
    is_attribute = head in ("attr", "const")
    reader.at += is_attribute
    name = reader.take().text
    if is_attribute and reader.next() == "=":
        reader.need("=")
        value = reader.chance_or_value()
        is_whole(reader)
        return Attribute(name, value, head == "const", line, written(piece), annotations)
    parameters = [parameter.name for parameter in reader.arguments()]
    if reader.takes("="):
        found: Declaration = Function(name, parameters, reader.chance_or_value(), line)
    else:
        reader.need("-->")
        found = Rule(name, parameters, reader.body(), line, annotations, written(piece))
    is_whole(reader)
    return found


def is_whole(reader: Values) -> None:
    if reader.at < len(reader.tokens):
        raise Unreadable(f"`{reader.next()}` in line {reader.line()} can't stand there")


def declarations(tokens: List[Token]) -> List[Declaration]:
    """All declarations of a file; one that can't be read is kept as it is written."""
    found: List[Declaration] = []
    for annotations, piece in pieces(tokens):
        try:
            found.append(declared(annotations, piece))
        except (Unreadable, AttributeError) as fault:
            reason = str(fault) if isinstance(fault, Unreadable) else "a parameter is a name"
            found.append(Unread(written(piece), reason, piece[0].line))
    return found
