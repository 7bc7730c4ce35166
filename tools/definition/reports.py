"""What is reported of the members of a derivation, and the texts."""
from dataclasses import dataclass

from .derivation import FAULTED, INSTANCE
from .fraction import decimal_text_of
from .frame import Scope
from .run import path_text
from .solid import mesh_of


@dataclass(frozen=True)
class Drawn:
    lot: str
    symbol: str
    primitive: str
    scope: Scope


def members_of(lot, members):
    """The members of a lot by their paths: an ancestor comes first, and then siblings by their indices."""
    return sorted((member for member in members if member.shape.lot == lot), key=lambda member: member.shape.path)


def in_order(lots, members):
    return [member for lot in lots for member in members_of(lot, members)]


def drawn_in(lots, members):
    """The instances of these lots in their order, and in a lot by their paths."""
    return [
        Drawn(member.shape.lot, member.shape.symbol, member.which, member.shape.scope)
        for member in in_order(lots, members)
        if member.kind == INSTANCE
    ]


def faults_in(lots, members):
    return [member for member in in_order(lots, members) if member.kind == FAULTED]


def fault_text_of(faults):
    lines = [
        f"# fault {fault.shape.lot} {path_text(fault.shape.path)} {fault.shape.symbol} {fault.which}\n"
        for fault in faults
    ]
    return f"# faults {len(faults)}\n" + "".join(lines)


def stats_text_of(lots, members, expanded):
    instances = sum(member.kind == INSTANCE for member in members)
    faults = sum(member.kind == FAULTED for member in members)
    return f"# stats lots {len(lots)} shapes {len(members)} instances {instances} faults {faults} expanded {expanded}\n"


# ---- OBJ


def mesh_drawn(drawn):
    return mesh_of(drawn.primitive, drawn.scope)


def vertex_line(decimals, point):
    return "v " + " ".join(decimal_text_of(coordinate, decimals) for coordinate in point) + "\n"


def face_line(before, corners):
    """The numbers of vertices, of which so many stand before the mesh."""
    return "f" + "".join(f" {before + corner}" for corner in corners) + "\n"


def mesh_text(decimals, before, mesh):
    vertices = "".join(vertex_line(decimals, vertex) for vertex in mesh.vertices)
    return vertices + "".join(face_line(before, corners) for corners in mesh.faces)


def text_by(mesh, lots, drawn, decimals):
    """The text of lots and of what is drawn, where these meshes stand for it. Vertices are numbered through all of it."""
    text, before = ["# cga_city obj\n"], 0
    for lot in lots:
        text.append(f"o {lot}\n")
        for each in drawn:
            if each.lot == lot:
                text.append(f"g {each.symbol}\n" + mesh_text(decimals, before, mesh(each)))
                before += len(mesh(each).vertices)
    return "".join(text)


def obj_text_of(lots, drawn, decimals):
    return text_by(mesh_drawn, lots, drawn, decimals)
