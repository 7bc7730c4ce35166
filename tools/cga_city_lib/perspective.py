"""A perspective of a town as PNG: by the page's renderer in Chromium where that is there, else a parallel picture by Python."""
from typing import Optional, Tuple

from . import by_browser
from .browser import CHROMIUM
from .obj import Town
from .page import data_of
from .png import png
from .render import render

VIEW = "corner"  # from nearer to the ground than a bird's


def chromium() -> Optional[str]:
    return CHROMIUM


def by_page(town: Town, title: str, width: int, height: int) -> Optional[bytes]:
    """What the page draws; nothing where no browser is there, or it fails."""
    if not by_browser.is_there():
        return None
    try:
        return by_browser.picture(data_of(town, title), VIEW, (width, height), is_needed=False)
    except OSError:
        return None


def picture(town: Town, title: str, width: int, height: int) -> Tuple[bytes, str]:
    """The picture, and what it is."""
    found = by_page(town, title, width, height)
    if found:
        return found, "Perspective"
    return png(render(town, "bird", width, height)), "View from the south-east, parallel"
