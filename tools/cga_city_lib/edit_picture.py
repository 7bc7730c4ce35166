"""A picture of an edit: the page of a preview before an attribute is set, and behind it, while what changed lights up."""
import base64
import json
import re
import subprocess
import sys
from pathlib import Path
from typing import List, Optional, Tuple

from .browser import Browser, Silent
from .call import Refused
from .png_palette import Picture, opened, reduced

PREVIEW = Path(__file__).resolve().parent.parent / "preview"
PATIENCE = 300
SECONDS = 1.6  # for which each of both is seen
STILL = "(() => { const now = performance.now(); performance.now = () => now; refine = () => {}; })()"
LIT = "(() => { draw(); tell_worked(); clearTimeout(told_until); })()"
SEEN = "head.save === 1 && !head.is_busy && is_asked === false"


def screen(browser: Browser) -> Picture:
    browser.run("new Promise(done => requestAnimationFrame(() => requestAnimationFrame(done)))")
    return opened(base64.b64decode(browser.ask("Page.captureScreenshot", format="png")["data"]))


def pictures(browser: Browser, address: str, name: str, value: str, view: str) -> List[Picture]:
    browser.open(address)
    browser.wait(SEEN, PATIENCE)
    if browser.run("Boolean(head.said)"):
        raise Refused(browser.run("head.said"))
    browser.run(f"see(() => {{ {view}; }})")
    browser.run(
        f"document.querySelectorAll('#help, #views, #legend').forEach(one => {{ one.style.visibility = 'hidden'; }}); {STILL}"
    )
    before = screen(browser)
    browser.run(f"turn({json.dumps(name)}, {json.dumps(value)})")
    browser.wait("head.turns === 1 && is_asked === false", PATIENCE)
    if browser.run("Boolean(head.said)"):
        raise Refused(browser.run("head.said"))
    browser.run(LIT)
    return [before, screen(browser)]


def edit_picture(script: str, program: Optional[str], setting: str, view: str, size: Tuple[int, int]) -> bytes:
    """An APNG of the script's town before and behind a setting, as `storey=4.2`."""
    name, _, value = setting.partition("=")
    words = [sys.executable, str(PREVIEW), "--port", "0", *(["--program", program] if program else []), script]
    preview = subprocess.Popen(words, stdout=subprocess.PIPE, text=True)
    browser = Browser(*size, PATIENCE)
    try:
        address = re.match(r"(\S+/) ", preview.stdout.readline())  # type: ignore[union-attr]
        if not address:
            raise Refused("the preview didn't begin; the line above says why")
        return reduced(pictures(browser, address.group(1), name, value, view), SECONDS)
    except Silent as fault:
        raise Refused(f"Chromium made no picture ({fault})") from None
    finally:
        browser.close()
        preview.terminate()
        preview.communicate()
