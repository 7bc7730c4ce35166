"""A map: the parcels and the streets of a GeoJSON file, or of another one that GDAL turns into GeoJSON."""
import json
import os
import shutil
import subprocess
from collections import namedtuple
from decimal import Decimal
from typing import Any, Dict, Iterator, List, Optional, Tuple

from .call import Refused
from .cityjson import as_geojson
from .ground_kinds import area_kind, line_kind
from .geometry import Position, is_geometry, line, pieces, polygon
from .reference_system import CONVERT
from .skipped import Skips
from .strangers_text import told

# part is the number of a polygon in its feature, from 1; lines are the ring of a parcel and those of its holes, or the lines
# of a street
Feature = namedtuple("Feature", "number part text lines properties")
LARGEST = 256 << 20
OF_GDAL = (".shp", ".gpkg", ".gml", ".kml", ".kmz", ".fgb", ".tab", ".mif", ".gdb", ".sqlite", ".zip", ".dxf")


class Map:
    """What a file has: parcels, streets, areas and ways that are other ground, the numbers of features that are passed over,
    and its member `crs`."""

    def __init__(self, crs: Any):
        self.parcels: List[Feature] = []
        self.streets: List[Feature] = []
        self.areas: List[Feature] = []
        self.ways: List[Feature] = []
        self.others: List[int] = []
        self.crs = crs

    def features(self) -> Iterator[Feature]:
        for some in (self.parcels, self.streets, self.areas, self.ways):
            yield from some

    def keep(self, features: List[Feature]) -> None:
        """Only these features go on."""
        kept = {id(feature) for feature in features}
        for some in (self.parcels, self.streets, self.areas, self.ways):
            some[:] = [one for one in some if id(one) in kept]


def positions(features: List[Feature]) -> List[Position]:
    return [at for feature in features for some in feature.lines for at in some]


def from_gdal(path: str) -> bytes:
    """Another format as GeoJSON, where ogr2ogr of GDAL is there."""
    if not os.path.exists(path):
        raise FileNotFoundError(2, "No such file or directory", path)
    if not shutil.which("ogr2ogr"):
        raise Refused(
            f"{path}: isn't GeoJSON, and `ogr2ogr` (Debian: gdal-bin), which reads it, isn't there: where it is, type `{CONVERT} {path}`"
        )
    source = "/vsizip/" * path.lower().endswith(".zip") + os.path.abspath(path)
    command = ["ogr2ogr", "-f", "GeoJSON", "-lco", "RFC7946=NO", "/vsistdout/", source]
    done = subprocess.run(command, stdout=subprocess.PIPE, stderr=subprocess.PIPE, check=False)
    if done.returncode or not done.stdout:
        why = (done.stderr.decode("utf-8", "replace").strip().splitlines() or ["no reason is told"])[-1]
        raise Refused(f"{path}: ogr2ogr doesn't read it: {told(why)}")
    return done.stdout


def bytes_of(path: str) -> bytes:
    if path.lower().endswith(OF_GDAL):
        return from_gdal(path)
    with open(path, "rb") as file:
        if os.fstat(file.fileno()).st_size > LARGEST:
            raise Refused(f"{path}: has more than {LARGEST >> 20} MiB: cut the parcels of one town out of it")
        return file.read()


def text_of(path: str) -> str:
    data = bytes_of(path)
    try:
        return data.decode("utf-8-sig")
    except UnicodeDecodeError as fault:
        raise Refused(f"{path}: isn't text in UTF-8 (byte {fault.start + 1}): save it as GeoJSON in UTF-8") from None


def parsed(path: str) -> Any:
    text = text_of(path)
    if not text.strip():
        raise Refused(f"{path}: is empty: export the parcels as GeoJSON")
    if text.lstrip().startswith("<"):
        raise Refused(f"{path}: is HTML or XML, and no GeoJSON: a page may have been saved in the map's place")
    try:
        return json.loads(text, parse_float=Decimal)
    except json.JSONDecodeError as fault:
        raise Refused(f"{path}: isn't JSON: {fault.msg}, line {fault.lineno}, column {fault.colno}") from None
    except RecursionError:
        raise Refused(f"{path}: brackets are nested too deeply for GeoJSON") from None
    except (ValueError, ArithmeticError):
        raise Refused(
            f"{path}: a number has thousands of digits, or too large an exponent: export the map again"
        ) from None


def features_of(data: Any, path: str) -> List[Any]:
    kind = data.get("type") if isinstance(data, dict) else None
    if kind == "FeatureCollection" and isinstance(data.get("features"), list):
        return list(data["features"])
    if kind == "Feature":
        return [data]
    if kind and is_geometry(data):
        return [{"type": "Feature", "properties": {}, "geometry": data}]
    why = "TopoJSON, which `ogr2ogr -f GeoJSON new.geojson` turns" if kind == "Topology" else "JSON, and no GeoJSON"
    raise Refused(f"{path}: is {why}: a FeatureCollection with a list of features is needed")


def properties_of(feature: Any) -> Dict[str, Any]:
    if not isinstance(feature, dict):
        raise Refused("isn't an object")
    geometry, properties = feature.get("geometry") or {}, feature.get("properties") or {}
    if not isinstance(geometry, dict) or not isinstance(properties, dict):
        raise Refused("its geometry or its properties aren't an object")
    if "id" in feature and properties.get("name") in (None, ""):
        return {**properties, "name": feature["id"]}
    return properties


def name_of(feature: Any, word: str) -> str:
    """The text by which the map names a feature."""
    try:
        given = properties_of(feature).get(word)
    except Refused:
        return ""
    return "" if given is None or isinstance(given, (bool, list, dict)) else str(given).strip()


def data_of(path: str) -> Any:
    data = parsed(path)
    if not isinstance(data, dict) or data.get("type") != "CityJSON":
        return data
    try:
        return as_geojson(data)
    except (KeyError, TypeError, ValueError, LookupError, AttributeError, ArithmeticError):
        raise Refused(f"{path}: is no whole CityJSON: export it again, or take its GeoJSON") from None


def read_map(path: str, word: str, skips: Skips) -> Map:
    """The map; `word` is the property that names its parcels."""
    data = data_of(path)
    found = Map(data.get("crs") if isinstance(data, dict) else None)
    for number, feature in enumerate(features_of(data, path), 1):
        text = name_of(feature, word)
        taken = skips.tried(number, text, lambda: [(kind, piece) for kind, piece in pieces_of(feature)])
        take(found, number, text, feature, taken, skips)
    skips.check(found.parcels)
    if not found.parcels:
        raise Refused(f"{path}: no feature is a polygon: export the parcels themselves, not their labels or borders")
    return found


def pieces_of(feature: Any) -> Iterator[Tuple[str, Any]]:
    properties_of(feature)
    geometry = feature.get("geometry")
    if geometry:
        yield from pieces(geometry)


def take(
    found: Map, number: int, text: str, feature: Any, taken: Optional[List[Tuple[str, Any]]], skips: Skips
) -> None:
    """Puts the polygons of a feature to the parcels, and its lines to the streets."""
    if taken is None:
        return
    if not taken:
        found.others.append(number)
        if is_empty(feature.get("geometry")):
            skips.leave(number, text, "its geometry is empty")
        return
    properties, lines, part = properties_of(feature), [], 0
    polygons = found.areas if area_kind(properties) else found.parcels
    for kind, piece in taken:
        reads = polygon if kind == "Polygon" else line
        read = skips.tried(number, text, lambda: reads(piece))
        if read is not None and kind == "Polygon":
            part += 1
            polygons.append(Feature(number, part, text, [read.ring, *read.holes], properties))
        elif read is not None:
            lines.append(read)
    if lines:
        take_lines(found, Feature(number, 1, text, lines, properties))


def take_lines(found: Map, feature: Feature) -> None:
    kind = line_kind(feature.properties)
    if kind is None:
        found.others.append(feature.number)
    else:
        (found.streets if kind == "street" else found.ways).append(feature)


def is_empty(geometry: Any) -> bool:
    """Whether it is a polygon or lines without any part."""
    return isinstance(geometry, dict) and geometry.get("type") in (
        "MultiPolygon",
        "MultiLineString",
        "GeometryCollection",
    )
