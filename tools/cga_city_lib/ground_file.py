"""The ground of a town, as tools/parcels writes it beside a script: streets, water, parks and the borders of parcels.

It is JSON, in the coordinates of the script. No shape of the town is made of it: tools draw it beside the town, and take
from it the names and properties that the map has.
"""
import json
import math
from collections import namedtuple
from typing import Any, Dict, List, Tuple

from .call import Refused
from .files import written
from .strangers_text import told

Point = Tuple[float, float]
FORMAT = "cga_city ground 1"
# a band along a line, a polygon, and a parcel with what the map says of it; front is that of its lot, as two points
Way = namedtuple("Way", "kind name width line")
Area = namedtuple("Area", "kind name ring holes")
Plot = namedtuple("Plot", "lot feature name area ring holes front properties")
# system is the code, units those of its numbers; origin is (0, 0) in them, and angle how far the script is turned
Place = namedtuple("Place", "system units origin angle")
PLACES = 6


class Ground:
    def __init__(self, place: Place, plots: List[Plot], ways: List[Way], areas: List[Area]):
        self.place, self.plots, self.ways, self.areas = place, plots, ways, areas
        self.by_lot = {plot.lot: plot for plot in plots}

    def name_of(self, lot: str) -> str:
        """The name by the map; the lot's own where the map has none."""
        plot = self.by_lot.get(lot)
        return plot.name if plot and plot.name else lot

    def points(self) -> List[Point]:
        return [at for plot in self.plots for at in plot.ring]


def rounded(line: List[Point]) -> List[List[float]]:
    return [[round(x, PLACES) + 0.0, round(z, PLACES) + 0.0] for x, z in line]


def plain(value: Any) -> Any:
    """A property as JSON tells it: numbers as they were written, as far as floats can."""
    if value is None or isinstance(value, (bool, int, str)):
        return value
    if isinstance(value, (list, dict)):
        return json.loads(json.dumps(value, default=plain))
    number = float(value)
    return number if math.isfinite(number) else str(value)


def data_of(ground: Ground) -> Dict[str, Any]:
    place = ground.place._asdict()
    return {
        "format": FORMAT,
        "place": {**place, "origin": [str(part) for part in place["origin"]]},
        "plots": [
            {
                **plot._asdict(),
                "area": round(plot.area, 3),
                "ring": rounded(plot.ring),
                "holes": [rounded(hole) for hole in plot.holes],
                "front": rounded(plot.front),
                "properties": {word: plain(value) for word, value in plot.properties.items()},
            }
            for plot in ground.plots
        ],
        "ways": [{**way._asdict(), "line": rounded(way.line)} for way in ground.ways],
        "areas": [
            {**area._asdict(), "ring": rounded(area.ring), "holes": [rounded(hole) for hole in area.holes]}
            for area in ground.areas
        ],
    }


def write_ground(path: str, ground: Ground) -> None:
    text = json.dumps(data_of(ground), separators=(",", ":"), ensure_ascii=False).replace("},{", "},\n{")
    with written(path, encoding="utf-8", errors="replace") as file:
        file.write(text + "\n")


def real(value: Any) -> float:
    number = float(value)
    if not math.isfinite(number):
        raise ValueError
    return number


def points_of(line: Any) -> List[Point]:
    return [(real(x), real(z)) for x, z in line]


def ground_of(data: Any) -> Ground:
    place = Place(**{**data["place"], "origin": tuple(map(str, data["place"]["origin"]))})
    list(map(real, (*place.origin, place.angle)))
    plots = [
        Plot(
            **{
                **one,
                "ring": points_of(one["ring"]),
                "holes": [points_of(hole) for hole in one["holes"]],
                "front": points_of(one["front"]),
            }
        )
        for one in data["plots"]
    ]
    ways = [Way(**{**one, "line": points_of(one["line"]), "width": real(one["width"])}) for one in data["ways"]]
    areas = [
        Area(**{**one, "ring": points_of(one["ring"]), "holes": [points_of(hole) for hole in one["holes"]]})
        for one in data["areas"]
    ]
    return Ground(place, plots, ways, areas)


def read_ground(path: str) -> Ground:
    with open(path, "rb") as file:
        raw = file.read()
    try:
        data = json.loads(raw.decode("utf-8-sig"))
        if data["format"] != FORMAT:
            raise Refused(
                f"{path}: says that it is {told(data['format'])}, and {FORMAT} is taken: make it by tools/parcels --ground"
            )
        return ground_of(data)
    except (ValueError, KeyError, TypeError, AttributeError, RecursionError, OverflowError):
        raise Refused(f"{path}: is no ground as tools/parcels --ground writes it: make it again") from None
