"""A browser without a window for the tests: pages are clicked and pictured, too."""
import atexit
import base64
import os
import sys
from contextlib import contextmanager
from pathlib import Path

sys.path.insert(0, str(Path(__file__).resolve().parent.parent))

from cga_city_lib import browser  # noqa: E402

CHROMIUM = browser.CHROMIUM

SHARED = []  # the one browser of all tests in a process


def shared():
    """A browser with a window of 480 by 320, which is begun once and ends with the tests."""
    if not SHARED:
        SHARED.append(Browser(480, 320))
        atexit.register(SHARED[0].close)
    return SHARED[0]


TICK = os.sysconf("SC_CLK_TCK")


def times_of(stat):
    """A process with its parent and its processor seconds, off its file in /proc, or nothing where it has ended."""
    try:
        head, _, rest = stat.read_text(encoding="utf-8", errors="replace").rpartition(")")
    except OSError:
        return None
    words = rest.split()
    return int(head.split()[0]), (int(words[1]), (int(words[11]) + int(words[12])) / TICK)


class Browser(browser.Browser):
    def seconds(self):
        """Processor seconds of the browser's processes so far."""
        told, below, more = (
            dict(filter(None, map(times_of, Path("/proc").glob("[0-9]*/stat")))),
            set(),
            {self.process.pid},
        )
        while more:
            below |= more
            more = {one for one, (parent, _) in told.items() if parent in below} - below
        return sum(told[one][1] for one in below if one in told)

    def new_tab(self):
        """Another page of this browser, which `on` leads to."""
        with self.on(None):
            target = self.ask("Target.createTarget", url="about:blank")["targetId"]
            return self.ask("Target.attachToTarget", targetId=target, flatten=True)["sessionId"]

    @contextmanager
    def on(self, tab):
        """Asks another page meanwhile."""
        self.page, was = tab, self.page
        try:
            yield self
        finally:
            self.page = was

    def mouse(self, kind, x, y, **more):
        self.ask("Input.dispatchMouseEvent", type=kind, x=x, y=y, **more)

    def click(self, x, y):
        self.mouse("mousePressed", x, y, button="left", clickCount=1)
        self.mouse("mouseReleased", x, y, button="left", clickCount=1)

    def drag(self, x, y, to_x, to_y):
        self.mouse("mousePressed", x, y, button="left", clickCount=1)
        self.mouse("mouseMoved", to_x, to_y, button="left", buttons=1)
        self.mouse("mouseReleased", to_x, to_y, button="left", clickCount=1)

    def wheel(self, x, y, by):
        self.mouse("mouseWheel", x, y, deltaX=0, deltaY=by)

    def key(self, key):
        self.ask("Input.dispatchKeyEvent", type="keyDown", key=key, text=key)
        self.ask("Input.dispatchKeyEvent", type="keyUp", key=key)

    def settled(self):
        """Waits until two pictures were drawn."""
        self.run("new Promise(done => requestAnimationFrame(() => requestAnimationFrame(done)))")

    def picture(self, path):
        self.settled()
        data = base64.b64decode(self.ask("Page.captureScreenshot", format="png")["data"])
        with open(path, "wb") as file:
            file.write(data)
