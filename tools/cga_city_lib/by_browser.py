"""A picture of a town by the page, in a browser without a window: as `tools/view` shows it, from a view or a camera."""
import base64
import json
import tempfile
from pathlib import Path
from typing import Any, Dict, Optional, Tuple

from .browser import CHROMIUM, Browser, Silent
from .call import Refused
from .page import page
from .progress import counted

PATIENCE = 300  # seconds for a picture
MEAN_OF = 8  # pictures that a fine one is the mean of
DONE = "gl.readPixels(0, 0, 1, 1, gl.RGBA, gl.UNSIGNED_BYTE, new Uint8Array(4))"  # waits until it is drawn
VIEWS = {  # what the page does for each view
    "bird": "VIEWS.bird()",
    "street": "VIEWS.corner()",
    "back": "Object.assign(view, {turn: Math.PI + .5, tilt: .5, lens: 1}); look_at(town)",
    "top": "VIEWS.plan()",
    "corner": "VIEWS.corner()",
    "eye": "VIEWS.eye()",
    "plan": "VIEWS.plan()",
}


def is_there() -> bool:
    return CHROMIUM is not None


def picture(data: Dict[str, Any], view: str, size: Tuple[int, int], is_needed: bool = True) -> Optional[bytes]:
    """The bytes of a PNG file. The view is a name of VIEWS, or the words of a camera. Where the browser makes none, that is
    refused, or nothing is given where no picture by it is needed."""
    does = VIEWS.get(view) or f"look_by({json.dumps(view)})"
    browser = Browser(*size, PATIENCE)
    try:
        with tempfile.TemporaryDirectory() as folder:
            file = Path(folder) / "town.html"
            file.write_text(page(data), encoding="utf-8")
            browser.open(file.as_uri())
            browser.wait("document.readyState === 'complete' && town.low !== null", PATIENCE)
        browser.run(f"(() => {{ {does}; begin_fine(); }})()")
        for number in counted(range(MEAN_OF), "pictures"):
            browser.run(f"add_picture({number}); {DONE}")
        told = browser.run("(() => { show_mean(); return canvas.toDataURL('image/png'); })()")
        return base64.b64decode(told.partition(",")[2])
    except Silent as fault:
        if is_needed:
            raise Refused(f"Chromium made no picture ({fault}): say --by python") from None
        return None
    finally:
        browser.close()
