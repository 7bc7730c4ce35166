"""A town as KML, for one look at it on a globe: the faces of each lot as polygons, with its properties."""
from typing import Dict, List, Sequence
from xml.sax.saxutils import escape

from .call import Refused
from .cityjson import Corner, faces_of
from .colours import colour_of
from .globe import Globe, globe_of
from .ground_file import Ground, Point
from .instances import Lots, Reals, symbols

HEAD = '<?xml version="1.0" encoding="UTF-8"?>\n<kml xmlns="http://www.opengis.net/kml/2.2"><Document>'


def clean(text: str) -> str:
    return escape("".join(letter for letter in text if letter.isprintable()))


def style(symbol: str) -> str:
    red, green, blue = colour_of(symbol)
    colour = f"ff{blue:02x}{green:02x}{red:02x}"
    return f'<Style id="{clean(symbol)}"><PolyStyle><color>{colour}</color><outline>0</outline></PolyStyle></Style>'


class Places(Dict[Point, Point]):
    """Degrees of places of the town, each worked out once."""

    def __init__(self, globe: Globe):
        super().__init__()
        self.globe = globe

    def __missing__(self, at: Point) -> Point:
        self[at] = self.globe.place(*at)
        return self[at]


def polygon(corners: Sequence[Corner], known: Places) -> str:
    places = [(*known[x, z], y) for x, y, z in corners]
    told = " ".join(f"{a:.9f},{b:.9f},{c:.3f}" for a, b, c in [*places, places[0]])
    return (
        "<Polygon><altitudeMode>relativeToGround</altitudeMode><outerBoundaryIs><LinearRing>"
        f"<coordinates>{told}</coordinates></LinearRing></outerBoundaryIs></Polygon>"
    )


def kml(lots: Lots, ground: Ground) -> bytes:
    """Faces in degrees; each symbol of a lot is a placemark of its colour, in a folder of the lot."""
    known, reals = Places(in_degrees(ground)), Reals()
    lines = [HEAD, *map(style, symbols(lots))]
    for lot, instances in lots.items():
        plot = ground.by_lot.get(lot)
        told = "; ".join(f"{word}: {value}" for word, value in plot.properties.items()) if plot else ""
        lines.append(f"<Folder><name>{clean(ground.name_of(lot))}</name><description>{clean(told)}</description>")
        by_symbol: Dict[str, List[Sequence[Corner]]] = {}
        for symbol, corners in faces_of(instances, reals):
            by_symbol.setdefault(symbol, []).append(corners)
        for symbol, some in by_symbol.items():
            faces = "".join(polygon(corners, known) for corners in some)
            lines.append(
                f"<Placemark><name>{clean(symbol)}</name><styleUrl>#{clean(symbol)}</styleUrl><MultiGeometry>{faces}</MultiGeometry></Placemark>"
            )
        lines.append("</Folder>")
    return "\n".join([*lines, "</Document></kml>", ""]).encode("utf-8", "replace")


def in_degrees(ground: Ground) -> Globe:
    """The globe about the town's middle in degrees, whatever the map's numbers are."""
    globe = globe_of(ground.place)
    middle = globe.longitude_latitude()
    if middle is None:
        raise Refused(
            f"where {globe.code or 'the map'} lies on the globe isn't known: install GDAL (Debian: gdal-bin), or export the map in degrees"
        )
    return globe._replace(is_degrees=True, middle=middle)
