"""The reference system of a map: whether its numbers are degrees, metres or feet, by the code that the file names.

reference_systems.json has the codes of the EPSG registry (v10.076): geographic ones in degrees from Greenwich, and projected
ones east and north whose lengths are near to true, by their unit. A code that isn't there is asked of PROJ or GDAL.
"""
import json
import re
import shutil
import subprocess
from collections import namedtuple
from fractions import Fraction
from functools import lru_cache
from pathlib import Path
from typing import Any, Dict, List, Optional, Tuple

from .call import Refused
from .strangers_text import told

KNOWN = Path(__file__).parent / "reference_systems.json"
METRES = {
    "metres": Fraction(1),
    "feet": Fraction(3048, 10000),
    "us-feet": Fraction(1200, 3937),
    "degrees": Fraction(1),
}
ASKED = (["projinfo", "-q", "-o", "PROJ"], ["gdalsrsinfo", "-o", "proj4"])
PATIENCE = 20
GLOBES = {"CRS84": "EPSG:4326", "CRS83": "EPSG:4269", "CRS27": "EPSG:4267"}  # names of OGC, longitude first
PLAIN = "EPSG:4326"
CONVERT = "ogr2ogr -f GeoJSON -t_srs EPSG:4326 new.geojson"

# units are a key of METRES, or `stretched` where lengths aren't true; area is west, south, east and north in degrees
System = namedtuple("System", "code units area")


@lru_cache(maxsize=None)
def known() -> Dict[str, Any]:
    with open(KNOWN, encoding="utf-8") as file:
        return dict(json.load(file))


def stands_in(number: int, lines: List[str]) -> bool:
    for part in " ".join(lines).split():
        low, _, high = part.partition("-")
        if int(low) <= number <= int(high or low):
            return True
    return False


def code_in(crs: Any) -> Optional[str]:
    """The code that a member `crs` names, as EPSG:25832; its own text where it is none, nothing where the file says nothing."""
    if crs is None:
        return None
    properties = crs.get("properties") if isinstance(crs, dict) else None
    name = (
        next((properties[word] for word in ("name", "href", "code") if word in properties), None) if properties else crs
    )
    text = str(name)
    globe = re.search(r"CRS(84|83|27)h?$", text)
    if globe:
        return GLOBES[globe.group(0).rstrip("h")]
    found = re.search(r"(?:(EPSG|ESRI|IGNF)\b.*?|^)(?<!\d)(\d{4,6})(?=/?$|/\w*/?$)", text, re.IGNORECASE)
    return f"{(found.group(1) or 'EPSG').upper()}:{found.group(2)}" if found else text


def units_of(code: str) -> Optional[str]:
    """The units of a code, by the table; nothing where it isn't there."""
    kind, _, number = code.partition(":")
    if not number.isdigit() or kind not in ("EPSG", "ESRI"):
        return None
    if kind == "ESRI" and int(number) in (102100, 102113):
        return "stretched"
    tables = ("degrees", "metres", "feet", "us_feet", "stretched") if kind == "EPSG" else ()
    return next((word.replace("_", "-") for word in tables if stands_in(int(number), known()[word])), None)


def answer_of(command: List[str], code: str) -> str:
    try:
        done = subprocess.run(
            [*command, code], stdout=subprocess.PIPE, stderr=subprocess.DEVNULL, timeout=PATIENCE, check=False
        )
    except (OSError, subprocess.TimeoutExpired):
        return ""
    return done.stdout.decode("utf-8", "replace") if done.returncode == 0 else ""


def asked(code: str) -> Optional[str]:
    """The units by PROJ or GDAL, where one of them is there and knows the code."""
    for command in ASKED:
        text = answer_of(command, code) if shutil.which(command[0]) and not code.startswith("-") else ""
        if "+proj=" in text:
            return units_in(dict(re.findall(r"\+(\w+)=(\S+)", text)))
    return None


def units_in(words: Dict[str, str]) -> Optional[str]:
    """The units of a system that is told in PROJ's words; nothing where they are others than the tool takes."""
    if words["proj"] in ("longlat", "latlong"):
        return None if "pm" in words else "degrees"
    if words["proj"] in ("merc", "webmerc", "eqc", "cea", "eqearth") or words.get("axis", "enu") != "enu":
        return "stretched"
    return {"m": "metres", "ft": "feet", "us-ft": "us-feet"}.get(words.get("units", ""))


def system_of(crs: Any) -> Optional[System]:
    """The system that the file says; nothing where it says none. One that can't be taken is refused by its name."""
    code = code_in(crs)
    if code is None:
        return None
    units = units_of(code) or asked(code)
    if units is None:
        raise Refused(
            f"the map's reference system is {told(code)}, which isn't one that is known to be in degrees, metres or feet: "
            f"turn the map into degrees by `{CONVERT} MAP`, or say --units"
        )
    area = known()["areas"].get(code.partition(":")[2]) if code.startswith("EPSG:") else None
    return System(code, units, tuple(area) if area else None)


def said_system(crs: Any, units: Optional[str]) -> Optional[System]:
    """The system, where the tool's word for the units goes before the file's."""
    if units is None:
        return system_of(crs)
    code = code_in(crs)
    return System(code if code and units_of(code) == units else None, units, None)


def utm(code: Optional[str]) -> bool:
    return code is not None and re.fullmatch(r"EPSG:(32[67]|258|269)\d\d", code) is not None


def bounds(system: Optional[System]) -> Optional[Tuple[float, float, float, float]]:
    """Least east and north, greatest east and north, of what the system is for."""
    if system is None:
        return None
    return (100_000, -10_000_000, 900_000, 10_000_000) if utm(system.code) else system.area
