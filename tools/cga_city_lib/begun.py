"""What this call has begun: a signal that ends the call ends that first."""
import fcntl
import shutil
import signal
import subprocess
import sys
import time
from contextlib import contextmanager

from .sources import say

SIGNALS = [signal.SIGINT, signal.SIGTERM, signal.SIGHUP]
USUAL = "half an hour to an hour on four processors"
BEGUN = time.monotonic()


class Signalled(BaseException):
    """A signal came that ends this call."""


class Beginning:
    """A signal that comes while a process is begun waits until that is known, so that it is ended, too."""

    is_now, came = False, None


def heed(number, _):
    for each in SIGNALS:
        signal.signal(each, signal.SIG_IGN)
    if Beginning.is_now:
        Beginning.came = number
    else:
        raise Signalled(signal.Signals(number))


@contextmanager
def heeding_signals():
    """Signals that were ignored before, as nohup does, stay so."""
    for each in SIGNALS:
        if signal.getsignal(each) != signal.SIG_IGN:
            signal.signal(each, heed)
    try:
        yield
    except Signalled as signalled:
        (number,) = signalled.args
        say(f"ended by {number.name[3:]}")
        sys.exit(128 + number)


@contextmanager
def begun(words, **streams):
    """A process that doesn't outlive this call."""
    Beginning.is_now, job = True, None
    try:
        job = subprocess.Popen(words, **streams)
        Beginning.is_now = False
        if Beginning.came:
            raise Signalled(signal.Signals(Beginning.came))
        yield job
    finally:
        Beginning.is_now = False
        if job is not None and job.poll() is None:
            job.terminate()
            job.wait()


def need_rt():
    if not shutil.which("rt"):
        fail(
            "rt isn't on the PATH; put there the folder bin/ of Rattle's toolchain, which proves and builds the program"
        )


def fail(*words):
    say(*words)
    sys.exit(1)


def last_lines(path, number=12):
    """The end of what a process said, to standard error."""
    with open(path, encoding="utf-8", errors="replace") as file:
        sys.stderr.writelines(file.readlines()[-number:])


def so_far():
    minutes, seconds = divmod(int(time.monotonic() - BEGUN), 60)
    return f"{minutes} min {seconds} s" if minutes else f"{seconds} s"


def take(lock, text):
    """Waits until no other call has the lock, and says so."""
    try:
        fcntl.flock(lock, fcntl.LOCK_EX | fcntl.LOCK_NB)
    except BlockingIOError:
        say(text)
        fcntl.flock(lock, fcntl.LOCK_EX)
