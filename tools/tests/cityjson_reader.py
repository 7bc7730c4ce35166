"""Reads CityJSON 2.0 as its specification and its schemas say, member by member, and complains of what they don't allow. It
knows nothing of the tool that writes. cjval, which does the same by the schemas' files, isn't in Debian."""
import re

ROOT = {"type", "version", "transform", "CityObjects", "vertices"}
MORE = {"metadata", "extensions", "appearance", "geometry-templates"}
METADATA = {"geographicalExtent", "identifier", "pointOfContact", "referenceDate", "referenceSystem", "title"}
SYSTEM = re.compile(r"https?://www\.opengis\.net/def/crs/[^/]+/[^/]+/[^/]+")
OBJECT = {"type", "attributes", "geographicalExtent", "geometry", "children", "parents", "address", "children_roles"}
FLAT = {"MultiSurface", "CompositeSurface"}
SOLID = {"Solid", "CompositeSolid"}
LINES = {"MultiPoint", "MultiLineString"}
# of each kind of object the forms that its geometry may have; Bridge, Tunnel and others aren't needed here
FORMS = {
    **dict.fromkeys(["Building", "BuildingPart"], LINES | FLAT | SOLID),
    **dict.fromkeys(["Road", "Railway", "Waterway", "TransportSquare"], LINES | FLAT),
    **dict.fromkeys(["WaterBody", "PlantCover"], LINES | FLAT | SOLID | {"MultiSolid"}),
    "LandUse": FLAT,
}
OF_BUILDINGS = set(
    "RoofSurface GroundSurface WallSurface ClosureSurface OuterCeilingSurface OuterFloorSurface Window Door "
    "InteriorWallSurface CeilingSurface FloorSurface".split()
)
DEPTH = {"MultiPoint": 1, "MultiLineString": 2, "MultiSurface": 3, "CompositeSurface": 3, "Solid": 4}


def demand(is_so, what):
    if not is_so:
        raise AssertionError(what)


def read(data):
    """Demands all that the standard does of a whole file; gives the number of geometries."""
    demand(ROOT <= data.keys() <= ROOT | MORE, "the members of the file")
    demand((data["type"], data["version"]) == ("CityJSON", "2.0"), "type and version")
    read_transform(data["transform"])
    read_metadata(data.get("metadata", {}))
    read_vertices(data["vertices"])
    used = [at for name, one in data["CityObjects"].items() for at in read_object(data, name, one)]
    demand(set(used) == set(range(len(data["vertices"]))), "each vertex is there and used")
    return len(used)


def read_transform(transform):
    demand(transform.keys() == {"scale", "translate"}, "the members of transform")
    for numbers in transform.values():
        demand(len(numbers) == 3 and all(type(number) in (int, float) for number in numbers), "three numbers")


def read_metadata(metadata):
    demand(metadata.keys() <= METADATA, "the members of metadata")
    demand(
        SYSTEM.fullmatch(metadata.get("referenceSystem", "http://www.opengis.net/def/crs/a/0/1")),
        "an address of a system",
    )


def read_vertices(vertices):
    demand(all(len(at) == 3 and all(type(part) is int for part in at) for at in vertices), "vertices of whole numbers")
    demand(len(set(map(tuple, vertices))) == len(vertices), "each vertex once")


def read_object(data, name, one):
    demand(one["type"] in FORMS and one.keys() <= OBJECT, f"{name}: its type and members")
    demand(isinstance(one.get("attributes", {}), dict), f"{name}: attributes are an object")
    demand(one["type"] != "BuildingPart" or one.get("parents"), f"{name}: a part has a parent")
    for other, back in (("children", "parents"), ("parents", "children")):
        for key in one.get(other, ()):
            demand(name in data["CityObjects"][key].get(back, ()), f"{name}: {other} know it")
    for shape in one.get("geometry", ()):
        yield from read_geometry(data, name, one["type"], shape)


def read_geometry(data, name, kind, shape):
    demand(
        {"type", "lod", "boundaries"} <= shape.keys() <= {"type", "lod", "boundaries", "semantics"}, f"{name}: members"
    )
    demand(shape["type"] in FORMS[kind] & DEPTH.keys(), f"{name}: a form of {kind}")
    demand(
        isinstance(shape["lod"], str) and re.fullmatch(r"[0-3](\.[0-3])?", shape["lod"]),
        f"{name}: a level of detail is a text",
    )
    lines = [list(shape["boundaries"])]
    for _ in range(DEPTH[shape["type"]] - 1):
        lines = [inner for outer in lines for inner in outer]
    least = {"MultiPoint": 1, "MultiLineString": 2}.get(shape["type"], 3)
    for line in lines:
        demand(all(type(at) is int and 0 <= at < len(data["vertices"]) for at in line), f"{name}: places of vertices")
        demand(
            len(line) >= least and (least < 3 or line[0] != line[-1]), f"{name}: a ring isn't closed, and has corners"
        )
        yield from line
    if "semantics" in shape:
        read_semantics(name, kind, shape["semantics"], shape["boundaries"])


def read_semantics(name, kind, semantics, boundaries):
    """Of surfaces: each has a value, which names a kind or is null."""
    demand(semantics.keys() == {"surfaces", "values"}, f"{name}: the members of semantics")
    demand(len(semantics["values"]) == len(boundaries), f"{name}: a value for each surface")
    number = len(semantics["surfaces"])
    demand(all(at is None or 0 <= at < number for at in semantics["values"]), f"{name}: values name surfaces")
    for surface in semantics["surfaces"]:
        demand(surface["type"] in OF_BUILDINGS or surface["type"][0] == "+", f"{name}: {surface['type']} of a {kind}")
