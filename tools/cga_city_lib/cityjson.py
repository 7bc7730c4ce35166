"""A town as CityJSON 2.0: a Building for each lot with the map's properties, surfaces by symbol, and the ground beside it."""
import json
from typing import Any, Dict, List, Optional, Sequence, Tuple

from .globe import Globe, globe_of
from .ground_file import Area, Ground, Plot, Point, Way, plain
from .instances import Lots, Reals

Corner = Tuple[float, float, float]
FINE, FINE_DEGREES = 1e-6, 1e-11  # of a vertex, in units of the map
SURFACES = (
    ("roof", "RoofSurface"),
    ("window", "Window"),
    ("door", "Door"),
    ("slab", "FloorSurface"),
    ("lawn", "GroundSurface"),
)
WAYS = {"street": "Road", "rail": "Railway", "water": "Waterway"}
AREAS = {"water": "WaterBody", "wood": "PlantCover", "park": "LandUse", "pavement": "LandUse"}


class Vertices:
    """Places as whole numbers of a fine step from an origin, each once."""

    def __init__(self, globe: Globe):
        self.globe, self.known = globe, {}  # type: ignore[var-annotated]
        self.scale = FINE_DEGREES if globe.is_degrees else FINE
        self.places: Dict[Tuple[float, float], Tuple[int, int]] = {}

    def flat(self, x: float, z: float) -> Tuple[int, int]:
        key = (x, z)
        if key not in self.places:
            east, north = self.globe.place(x, z)
            a, b = self.globe.middle
            self.places[key] = (round((east - a) / self.scale), round((north - b) / self.scale))
        return self.places[key]

    def at(self, corner: Corner) -> int:
        x, y, z = (round(part, 6) for part in corner)
        whole = (*self.flat(x, z), round(y / FINE))
        return int(self.known.setdefault(whole, len(self.known)))

    def ring(self, line: Sequence[Point], height: float = 0.0) -> List[int]:
        """A ring or a line at a height; a ring comes out counter-clockwise as the map has it."""
        return [self.at((x, height, z)) for x, z in line]

    def transform(self) -> Dict[str, Any]:
        return {"scale": [self.scale, self.scale, FINE], "translate": [*self.globe.middle, 0.0]}


def surface_of(symbol: str, is_upright: bool, looks_up: bool) -> str:
    """The kind of a surface, by a word in its symbol, else by how it stands."""
    for word, kind in SURFACES:
        if word in symbol.lower() and (kind != "RoofSurface" or looks_up or is_upright):
            return "WallSurface" if kind in ("RoofSurface", "FloorSurface", "GroundSurface") and is_upright else kind
    return "WallSurface" if is_upright else "RoofSurface" if looks_up else "OuterFloorSurface"


def normal_up(corners: Sequence[Corner]) -> float:
    """Twice the area of a face as seen from above; below 0 where it looks down."""
    return sum(p[2] * q[0] - p[0] * q[2] for p, q in zip(corners, [*corners[1:], corners[0]]))


def faces_of(instances: Any, reals: Reals) -> List[Tuple[str, List[Corner]]]:
    found = []
    for symbol, form, (x, y, z) in instances:
        a, b, c = reals[x], reals[y], reals[z]
        points = [(a + p[0], b + p[1], c + p[2]) for p in form.points()]
        found += [(symbol, [points[at] for at in face]) for face in form.faces]
    return found


def solid_geometry(faces: Sequence[Tuple[str, List[Corner]]], vertices: Vertices) -> Dict[str, Any]:
    """All faces as a surface each, with its kind."""
    kinds: Dict[Tuple[str, str], int] = {}
    boundaries, values = [], []
    for symbol, corners in faces:
        up = normal_up(corners)
        ring = [vertices.at(corner) for corner in corners]
        if len(set(ring)) < 3:
            continue
        kind = surface_of(symbol, abs(up) < 1e-6, up > 0)
        boundaries.append([ring])
        values.append(kinds.setdefault((kind, symbol), len(kinds)))
    surfaces = [{"type": kind, "symbol": symbol} for kind, symbol in kinds]
    return {
        "type": "MultiSurface",
        "lod": "2.2",
        "boundaries": boundaries,
        "semantics": {"surfaces": surfaces, "values": values},
    }


def footprint(ring: Sequence[Point], holes: Sequence[Sequence[Point]], vertices: Vertices) -> Dict[str, Any]:
    return {"type": "MultiSurface", "lod": "0", "boundaries": [[vertices.ring(line) for line in [ring, *holes]]]}


def building(plot: Plot, faces: Sequence[Tuple[str, List[Corner]]], vertices: Vertices) -> Dict[str, Any]:
    heights = [corner[1] for _, corners in faces for corner in corners]
    attributes = {word: plain(value) for word, value in plot.properties.items()}
    attributes.setdefault("name", plot.name or plot.lot)
    attributes.setdefault("seed", plot.feature)
    if heights:
        attributes["measuredHeight"] = round(max(heights), 6)
    geometry = [footprint(plot.ring, plot.holes, vertices)]
    if faces:
        geometry.append(solid_geometry(faces, vertices))
    return {"type": "Building", "attributes": attributes, "geometry": geometry}


def way_of(way: Way, vertices: Vertices) -> Dict[str, Any]:
    attributes = {"name": way.name, "width": way.width, "ground": way.kind}
    geometry = {"type": "MultiLineString", "lod": "0", "boundaries": [vertices.ring(way.line)]}
    return {"type": WAYS.get(way.kind, "Road"), "attributes": attributes, "geometry": [geometry]}


def area_of(area: Area, vertices: Vertices) -> Dict[str, Any]:
    geometry = footprint(area.ring, area.holes, vertices)
    return {
        "type": AREAS.get(area.kind, "LandUse"),
        "attributes": {"name": area.name, "ground": area.kind},
        "geometry": [geometry],
    }


def cityjson(lots: Lots, ground: Ground) -> bytes:
    globe, reals = globe_of(ground.place), Reals()
    vertices = Vertices(globe)
    objects = {plot.lot: building(plot, faces_of(lots.get(plot.lot, ()), reals), vertices) for plot in ground.plots}
    objects.update({f"way.{number}": way_of(way, vertices) for number, way in enumerate(ground.ways, 1)})
    objects.update({f"area.{number}": area_of(area, vertices) for number, area in enumerate(ground.areas, 1)})
    told = {
        "type": "CityJSON",
        "version": "2.0",
        "transform": vertices.transform(),
        **({"metadata": {"referenceSystem": globe.address()}} if globe.address() else {}),
        "CityObjects": objects,
        "vertices": list(vertices.known),
    }
    return json.dumps(told, separators=(",", ":"), ensure_ascii=False).encode("utf-8", "replace")


def places(data: Dict[str, Any]) -> List[List[float]]:
    """The vertices of a file in its reference system."""
    transform = data.get("transform") or {"scale": [1, 1, 1], "translate": [0, 0, 0]}
    scale, shift = transform["scale"], transform["translate"]
    return [
        [float(number) * float(one) + float(more) for number, one, more in zip(at, scale, shift)]
        for at in data["vertices"]
    ]


def polygons_of(shape: Dict[str, Any]) -> List[Any]:
    """The surfaces of a geometry, each as its rings."""
    boundaries = shape.get("boundaries") or []
    if shape.get("type") == "Solid":
        return [surface for shell in boundaries for surface in shell]
    return list(boundaries)


def feature_of(one: Dict[str, Any], at: List[List[float]]) -> Optional[Dict[str, Any]]:
    """The footprint of an object as a feature of GeoJSON: its geometry of the least level of detail."""
    shapes = sorted(one.get("geometry") or [], key=lambda shape: str(shape.get("lod", "9")))
    shapes = [shape for shape in shapes if str(shape.get("lod", "9")).startswith("0")]
    if not shapes:
        return None
    shape, properties = shapes[0], dict(one.get("attributes") or {})
    if shape["type"] == "MultiLineString":
        geometry: Dict[str, Any] = {
            "type": "MultiLineString",
            "coordinates": [[at[k][:2] for k in line] for line in shape["boundaries"]],
        }
    else:
        rings = [[[at[k][:2] for k in [*ring, ring[0]]] for ring in surface] for surface in polygons_of(shape)]
        geometry = {"type": "MultiPolygon", "coordinates": rings}
    return {"type": "Feature", "properties": properties, "geometry": geometry}


def as_geojson(data: Dict[str, Any]) -> Dict[str, Any]:
    """A file of CityJSON as the map of its footprints."""
    at = places(data)
    found = []
    for name, one in data["CityObjects"].items():
        feature = feature_of(one, at)
        if feature:
            feature["properties"].setdefault("name", name)
            found.append(feature)
    system = (data.get("metadata") or {}).get("referenceSystem")
    return {
        "type": "FeatureCollection",
        "features": found,
        **({"crs": {"properties": {"name": system}}} if system else {}),
    }
