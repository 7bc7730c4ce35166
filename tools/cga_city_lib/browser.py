"""A browser without a window, driven through two pipes: a page is opened and asked. Chromium does it, where it is installed."""
import json
import os
import select
import shutil
import subprocess
import tempfile
import time
from typing import Any, Dict, Optional

CHROMIUM = shutil.which("chromium") or shutil.which("chromium-browser")
WORDS = [
    "--headless=new",
    "--no-sandbox",
    "--remote-debugging-pipe",
    "--use-gl=angle",
    "--use-angle=swiftshader",
    "--enable-unsafe-swiftshader",
    "--disable-gpu-watchdog",
    "--no-first-run",
    "--disable-extensions",
    "--disable-background-networking",
    "--disable-component-update",
    "--hide-scrollbars",
    "--disable-sync",
    "--disable-default-apps",
    "--disable-breakpad",
    "--disable-domain-reliability",
    "--no-default-browser-check",
    "--disable-component-extensions-with-background-pages",
    "--mute-audio",
    "--metrics-recording-only",
    "--disable-features=Translate,OptimizationHints,MediaRouter",
]


class Silent(Exception):
    """The browser said nothing for too long, ended, or refused what it was asked."""


class Browser:
    def __init__(self, width: int = 640, height: int = 400, patience: float = 300) -> None:
        self.patience = patience  # seconds for an answer
        self.folder, self.size, self.number = tempfile.mkdtemp(), (width, height), 0
        ours, its = os.pipe(), os.pipe()
        words = [CHROMIUM, *WORDS, f"--user-data-dir={self.folder}", f"--window-size={width},{height}", "about:blank"]
        self.process = subprocess.Popen(
            words,
            stdin=subprocess.DEVNULL,
            stdout=subprocess.DEVNULL,
            stderr=subprocess.DEVNULL,
            close_fds=False,
            preexec_fn=lambda: self.placed(ours[0], its[1]),
        )
        os.close(ours[0])
        os.close(its[1])
        self.words, self.answers = os.fdopen(ours[1], "wb"), os.fdopen(its[0], "rb", buffering=0)
        self.held, self.page = b"", None  # type: bytes, Optional[str]
        targets = self.ask("Target.getTargets")["targetInfos"]
        target = next(one["targetId"] for one in targets if one["type"] == "page")
        self.page = self.ask("Target.attachToTarget", targetId=target, flatten=True)["sessionId"]
        self.ask("Emulation.setDeviceMetricsOverride", width=width, height=height, deviceScaleFactor=1, mobile=False)

    @staticmethod
    def placed(read: int, written: int) -> None:
        """Puts the pipes where the browser looks for them."""
        first, second = os.dup(read), os.dup(written)
        os.dup2(first, 3)
        os.dup2(second, 4)

    def close(self) -> None:
        self.process.terminate()
        self.process.wait(120)
        self.words.close()
        self.answers.close()
        shutil.rmtree(self.folder, ignore_errors=True)

    def ask(self, method: str, **words: Any) -> Dict[str, Any]:
        self.number += 1
        told = {"id": self.number, "method": method, "params": words}
        if self.page:
            told["sessionId"] = self.page
        self.words.write(json.dumps(told).encode() + b"\0")
        self.words.flush()
        while True:
            answer = self.answer()
            if answer.get("id") == self.number:
                if "error" in answer:
                    raise Silent(answer["error"])
                return answer["result"]

    def answer(self) -> Dict[str, Any]:
        while b"\0" not in self.held:
            if not select.select([self.answers], [], [], self.patience)[0]:
                raise Silent(f"the browser said nothing for {self.patience} seconds")
            piece = os.read(self.answers.fileno(), 1 << 20)
            if not piece:
                raise Silent("the browser has ended")
            self.held += piece
        first, _, self.held = self.held.partition(b"\0")
        return json.loads(first)

    def run(self, script: str) -> Any:
        """The value of an expression in the page, awaited."""
        got = self.ask("Runtime.evaluate", expression=script, returnByValue=True, awaitPromise=True)
        if "exceptionDetails" in got:
            raise Silent(got["exceptionDetails"]["exception"].get("description", script))
        return got["result"].get("value")

    def open(self, address: str) -> None:
        self.ask("Page.navigate", url=address)
        self.wait("document.readyState === 'complete'")

    def wait(self, condition: str, seconds: float = 120) -> None:
        end = time.monotonic() + seconds
        while not self.run(condition):
            if time.monotonic() > end:
                raise Silent(f"never came: {condition}")
            time.sleep(0.02)
