"""What the features of a map are beside parcels: water, parks, rails. A property `ground` says it, else the words of OpenStreetMap."""
from decimal import Decimal
from typing import Any, Dict, Optional

from .numerals import numeral

KINDS = ("water", "park", "wood", "pavement", "rail", "street")
AREAS = {
    "natural": {
        "water": "water",
        "wetland": "water",
        "wood": "wood",
        "scrub": "wood",
        "grassland": "park",
        "heath": "park",
    },
    "waterway": {"riverbank": "water", "dock": "water"},
    "leisure": dict.fromkeys(("park", "garden", "pitch", "playground", "golf_course", "common"), "park"),
    "landuse": {
        **dict.fromkeys(("grass", "meadow", "village_green", "recreation_ground", "cemetery", "allotments"), "park"),
        **dict.fromkeys(("forest", "orchard"), "wood"),
        **dict.fromkeys(("reservoir", "basin"), "water"),
    },
    "amenity": {"parking": "pavement"},
}
# lines that are no street; those without a kind are passed over
LINES = {"waterway": "water", "railway": "rail", "barrier": None, "boundary": None, "power": None, "natural": None}
# the width of a street in metres by its class
WIDTHS = {
    **dict.fromkeys(("motorway", "trunk", "primary"), 12.0),
    **dict.fromkeys(("secondary", "tertiary"), 9.0),
    **dict.fromkeys(("service", "living_street", "track"), 5.0),
    **dict.fromkeys(("footway", "path", "cycleway", "steps", "pedestrian"), 3.0),
}
USUAL = {"street": 8.0, "water": 6.0, "rail": 4.0}
WIDEST = 200


def is_parcel(properties: Dict[str, Any]) -> bool:
    """Whether a word for the rules is there, which goes before all others."""
    return properties.get("symbol") not in (None, "")


def area_kind(properties: Dict[str, Any]) -> Optional[str]:
    """What ground a polygon is; nothing where it is a parcel."""
    if is_parcel(properties):
        return None
    said = properties.get("ground")
    if isinstance(said, str) and said in KINDS:
        return said
    if properties.get("highway") not in (None, ""):
        return "pavement"
    for key, kinds in AREAS.items():
        value = properties.get(key)
        if isinstance(value, str) and value in kinds:
            return str(kinds[value])
    return "water" if isinstance(properties.get("water"), str) else None


def line_kind(properties: Dict[str, Any]) -> Optional[str]:
    """What a line is: a street if nothing else is said, nothing where it isn't drawn."""
    said = properties.get("ground")
    if isinstance(said, str) and said in KINDS:
        return said
    for key, kind in LINES.items():
        if properties.get(key) not in (None, "", "no") and properties.get("highway") in (None, ""):
            return kind
    return "street"


def width_of(properties: Dict[str, Any], kind: str) -> float:
    """In metres: the property `width`, else that of its class."""
    text = numeral(properties.get("width"))
    if text is not None and "/" not in text and 0 < Decimal(text) <= WIDEST:
        return float(text)
    usual = USUAL.get(kind, USUAL["street"])
    return WIDTHS.get(str(properties.get("highway")), usual) if kind == "street" else usual
