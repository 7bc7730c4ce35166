"""Reads USD as text by the words of its format, as far as a town has them, and sets the faces of its meshes where they stand."""
import re

TOKEN = re.compile(r'"(?:[^"\\]|\\.)*"|<[^>]*>|[\[\](){}=,]|[^\s\[\](){}=,"<]+')


class Prim:
    def __init__(self, kind, name):
        self.kind, self.name, self.values, self.children, self.head = kind, name, {}, {}, {}


class Reader:
    def __init__(self, text):
        assert text.startswith("#usda 1.0\n")
        self.tokens = TOKEN.findall(text.partition("\n")[2])[::-1]
        self.head = self.entries("(", ")")
        self.stage = {}
        while self.tokens:
            prim = self.prim()
            self.stage[prim.name] = prim

    def take(self, *wanted):
        token = self.tokens.pop()
        assert not wanted or token in wanted, (token, wanted)
        return token

    def next(self):
        return self.tokens[-1]

    def prim(self):
        self.take("def")
        prim = Prim(self.take(), self.take().strip('"'))
        assert re.fullmatch(r"[A-Za-z_]\w*", prim.name, re.ASCII), prim.name
        prim.head = self.entries("(", ")") if self.next() == "(" else {}
        self.take("{")
        while self.next() != "}":
            if self.next() == "def":
                child = self.prim()
                assert child.name not in prim.children
                prim.children[child.name] = child
            else:
                prim.values.update([self.entry()])
        self.take("}")
        return prim

    def entries(self, opens, closes):
        self.take(opens)
        found = dict(self.entry() for _ in iter(lambda: self.next() == closes, True))
        self.take(closes)
        return found

    def entry(self):
        """The name of a property, the last word before `=`, and its value, with what stands in brackets behind passed over."""
        words = [self.take()]
        while words[-1] != "=" and self.next() not in ("}", "def") and "outputs:surface" not in words:
            words.append(self.take())
            if words[-2:] == ["token", "outputs:surface"]:
                return "outputs:surface", None
        value = self.value()
        if self.tokens and self.next() == "(":
            self.entries("(", ")")
        return words[-2], value

    def value(self):
        token = self.take()
        if token == "{":
            self.tokens.append(token)
            return self.entries("{", "}")
        if token not in ("(", "["):
            return token if token[0] in '"<' else float(token)
        found, closes = [], {"(": ")", "[": "]"}[token]
        while self.next() != closes:
            found.append(self.value())
            if self.next() == ",":
                self.take()
        self.take()
        return tuple(found) if token == "(" else found

    # ---- what is drawn

    def at(self, path):
        first, *rest = path.strip("</>").split("/")
        found = self.stage[first]
        for name in rest:
            found = found.children[name]
        return found

    def world(self):
        """Each face where it stands: the name of its material and its corners."""
        town = self.stage["town"]
        for lot in town.children["lots"].children.values():
            by = lot.values["xformOp:translate"]
            assert lot.values["xformOpOrder"] == ['"xformOp:translate"']
            for mesh in lot.children.values():
                yield from self.faces(mesh, lambda point, by=by: tuple(a + b for a, b in zip(point, by)))
        for instancer in getattr(town.children.get("instances"), "children", {}).values():
            yield from self.instances(instancer)

    def instances(self, instancer):
        values = instancer.values
        lists = [values[name] for name in ("protoIndices", "orientations", "positions", "scales", "primvars:id")]
        assert len(set(map(len, lists))) == 1
        for index, turn, move, size, _ in zip(*lists):
            for mesh in self.at(values["prototypes"][int(index)]).children.values():
                yield from self.faces(
                    mesh,
                    lambda point, turn=turn, move=move, size=size: tuple(
                        a + b for a, b in zip(turned(turn, [a * b for a, b in zip(point, size)]), move)
                    ),
                )

    def faces(self, mesh, place):
        values, at = mesh.values, 0
        points, indices = values["points"], list(map(int, values["faceVertexIndices"]))
        material = self.at(values["material:binding"])
        assert material.values["outputs:surface.connect"].endswith("surface.outputs:surface>")
        assert mesh.head["apiSchemas"] == ['"MaterialBindingAPI"']
        assert values["extent"] == [tuple(map(bound, zip(*points))) for bound in (min, max)]
        for count in map(int, values["faceVertexCounts"]):
            yield material.name, [place(points[one]) for one in indices[at : at + count]]
            at += count
        assert at == len(indices)


def turned(turn, point):
    """By a quaternion whose real part stands first: the vector part of q p q'."""
    w, *v = turn
    cross = [v[1] * point[2] - v[2] * point[1], v[2] * point[0] - v[0] * point[2], v[0] * point[1] - v[1] * point[0]]
    t = [2 * part for part in cross]
    more = [v[1] * t[2] - v[2] * t[1], v[2] * t[0] - v[0] * t[2], v[0] * t[1] - v[1] * t[0]]
    return [p + w * a + b for p, a, b in zip(point, t, more)]
