"""How far a long work is, told where standard error is a terminal, and a limit on its seconds."""
import signal
import sys
import time


class TimeIsOver(Exception):
    """The seconds that were given are over."""


class Clock:
    """Ticks every two seconds while it is entered."""

    def __init__(self, name, seconds=None):
        self.name, self.seconds = name, seconds
        self.at = ""
        self.begun = time.monotonic()

    def __enter__(self):
        signal.signal(signal.SIGALRM, self.tick)
        first = min(2, self.seconds or 2)
        signal.setitimer(signal.ITIMER_REAL, first, first)
        return self

    def __exit__(self, *_):
        signal.setitimer(signal.ITIMER_REAL, 0)

    def tick(self, *_):
        passed = time.monotonic() - self.begun
        if self.seconds is not None and passed >= self.seconds:
            raise TimeIsOver
        if sys.stderr.isatty():
            print(f"{self.name}: {self.at}, {passed:.0f} s so far", file=sys.stderr)
