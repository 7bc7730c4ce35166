"""Calls a tool without a process of its own, or in one that is a copy of this one: neither takes a start of Python."""
import io
import os
import signal
import sys
from functools import lru_cache
from pathlib import Path

TESTS = Path(__file__).resolve().parent
TOP = TESTS.parent.parent
sys.path.insert(0, str(TESTS.parent))


@lru_cache(maxsize=None)
def code_of(path):
    return compile(Path(path).read_bytes(), path, "exec")


def do(path):
    exec(code_of(path), {"__name__": "__main__", "__file__": path})


def called(tool, *words, folder=None):
    """The status of a call, what it wrote, and what it said on standard error; from that folder, if one is said."""
    kept, here, held = (sys.argv, sys.stdout, sys.stderr), os.getcwd(), dict(os.environ)
    out, said = io.TextIOWrapper(io.BytesIO(), encoding="utf-8", newline=""), io.StringIO()
    sys.argv, sys.stdout, sys.stderr = [str(TOP / "tools" / tool), *map(str, words)], out, said
    os.chdir(folder or here)
    try:
        do(sys.argv[0])
    except SystemExit as end:
        status = end.code
    finally:
        sys.argv, sys.stdout, sys.stderr = kept
        os.chdir(here)
        if os.environ != held:
            os.environ.clear()
            os.environ.update(held)
    out.flush()
    return status, out.buffer.getvalue().decode("utf-8"), said.getvalue()


def begun(tool, *words, out, err):
    """A process that does a call, and writes to these files; a signal to it is one to the tool."""
    from multiprocessing import get_context  # it takes long to load, and most tests need none

    process = get_context("fork").Process(target=copied, args=(tool, words, out, err))
    process.start()
    return process


def copied(tool, words, out, err):
    signal.signal(signal.SIGINT, signal.default_int_handler)
    for given, own in ((out, 1), (err, 2)):
        os.dup2(given.fileno(), own)
    sys.stdout, sys.stderr = open(1, "w", encoding="utf-8", closefd=False), open(
        2, "w", encoding="utf-8", closefd=False
    )
    sys.argv = [str(TOP / "tools" / tool), *map(str, words)]
    do(sys.argv[0])


def proved_program():
    """The program, where a proved one is there."""
    import subprocess

    launcher = TOP / "cga_city"
    return str(launcher) if subprocess.run([launcher, "--proved"]).returncode == 0 else None
