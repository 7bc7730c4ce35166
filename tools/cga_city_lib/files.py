"""How files are written: whole or not at all, and one writer at a time in a folder that several programs work in."""
import fcntl
import os
import stat
import sys
from contextlib import contextmanager

from .call import Refused
from .given_files import Unwritten

PIECE = 1 << 20  # bytes that are compared at once


def write(path, data):
    """Gives the file these bytes, unless it has them; who reads the old ones reads on in these."""
    if path.is_file() and has(path, data):
        return False
    with written(path) as file:
        file.write(data)
    return True


def has(path, data):
    """Whether a file's bytes are these; few are held at once."""
    with open(path, "rb") as file:
        if os.fstat(file.fileno()).st_size != len(data):
            return False
        return all(file.read(PIECE) == data[at : at + PIECE] for at in range(0, len(data), PIECE))


@contextmanager
def written(path, **text):
    """A file that is written to take a place; with an `encoding` it is one of text.

    A regular file is replaced as soon as the new one is whole, so that nobody sees a half, and it keeps its mode; a link stays,
    and the file that it names is replaced. What is no regular file, such as a pipe, is written into.
    """
    mode = "w" if text else "wb"
    try:
        old = os.stat(path)
    except FileNotFoundError:
        old = None
    if is_written_into(path, old):
        with naming(path), open(path, mode, **text) as file:
            yield file
        return
    target = os.path.realpath(path)
    new = f"{target}.{os.getpid()}.new"
    try:
        with naming(path, new), open(new, mode, **text) as file:
            if old:
                os.chmod(new, stat.S_IMODE(old.st_mode))
            yield file
        os.replace(new, target)
    finally:
        if os.path.lexists(new):
            os.unlink(new)


def is_written_into(path, old):
    """Whether it is no regular file, or one that another process has open under a name of the system's."""
    return bool(old and not stat.S_ISREG(old.st_mode)) or os.path.abspath(path).startswith(("/dev/", "/proc/"))


@contextmanager
def naming(path, part=None):
    """Where a disk is full, the system doesn't say for which file; and a part is named as the file that it is to become."""
    try:
        yield
    except OSError as fault:
        raise Unwritten(fault.errno, fault.strerror, str(path) if fault.filename in (None, part) else fault.filename)


def can_write(folder):
    return os.access(folder, os.W_OK)


@contextmanager
def alone(folder):
    """Waits until no other call works in the folder, and says so. Where nothing can be written, nobody waits."""
    if not folder.is_dir():
        raise Refused(f"{folder} is no folder of a region")
    if not can_write(folder):
        yield
        return
    with (folder / "lock").open("w") as lock:
        try:
            fcntl.flock(lock, fcntl.LOCK_EX | fcntl.LOCK_NB)
        except BlockingIOError:
            name = os.path.basename(sys.argv[0])
            print(f"{name}: another call works in {folder}; waiting for it", file=sys.stderr)
            fcntl.flock(lock, fcntl.LOCK_EX)
        yield
