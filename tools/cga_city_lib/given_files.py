"""The files that a tool reads and those that it writes, looked at before it begins to work, and why one of them can't be had."""
import errno
import os
import stat
from typing import Any, List, Sequence, Tuple

from .strangers_text import shown
from .wrong_word import WrongFile


Target = Tuple[
    str, Sequence[str]
]  # a file that is written, and the endings that it may have; each where there are none


class Unwritten(OSError):
    """A file can't be written, which no word could tell before."""


def check_files(inputs: Sequence[str], targets: Sequence[Target]) -> None:
    """Refuses an input that can't be read, and a target that can't be written, whose ending is of another kind, or that is an
    input or another target. Each target has its endings; none where each is taken."""
    for path in inputs:
        check_input(path)
    read = [(path, key_of(path)) for path in inputs]
    written: List[Any] = []
    for path, endings in targets:
        key = key_of(path)
        for other, its in read:
            if key and key == its:
                more = "" if path == other else f", since it is {shown(other)}"
                raise WrongFile(f"{shown(path)} would be overwritten{more}: name another file")
        if key and key in written:
            raise WrongFile(f"{shown(path)} is named for two files that are written: give each of them its own name")
        check_target(path, endings, key)
        written.append(key)


def key_of(path: str) -> Any:
    """What tells a file from others, by whatever name; nothing of what is no regular file, such as a pipe."""
    try:
        seen = os.stat(path)
    except OSError:
        return os.path.realpath(path)
    return (seen.st_dev, seen.st_ino) if stat.S_ISREG(seen.st_mode) else None


def check_input(path: str) -> None:
    """Refuses what can't be read."""
    try:
        seen = os.stat(path)
    except OSError as fault:
        raise WrongFile(reason_of(path, fault)) from None
    if stat.S_ISDIR(seen.st_mode):
        raise WrongFile(reason_of(path, OSError(errno.EISDIR, "")))
    if not os.access(path, os.R_OK):
        raise WrongFile(reason_of(path, OSError(errno.EACCES, "")))


def check_target(path: str, endings: Sequence[str], key: Any) -> None:
    """Refuses a target that can't be written. What is there and no regular file, such as a pipe, may have any name."""
    if not path or os.path.isdir(path):
        raise WrongFile(reason_of(path, OSError(errno.EISDIR, "")))
    if endings and key and not path.lower().endswith(tuple(endings)):
        raise WrongFile(f"{shown(path)} has to end in {' or '.join(filter(None, endings))}")
    folder = os.path.dirname(os.path.realpath(path))
    if not os.path.isdir(folder):
        raise WrongFile(reason_of(path, OSError(errno.ENOENT, "")))
    if key and not os.access(folder, os.W_OK):
        raise WrongFile(f"{shown(path)}: nothing can be written in its folder: name one in which this user may write")


def reason_of(path: Any, fault: OSError) -> str:
    """Why a file can't be read or written, and what to do."""
    text = os.fsdecode(path)
    name, folder = shown(text), os.path.dirname(text)
    if not text:
        return "a file's name is empty: give its name"
    if fault.errno == errno.ENOENT and folder and not os.path.isdir(folder):
        return f"{name}: there is no folder {shown(folder)}: make it, or name another one"
    known = {
        errno.ENOENT: "no such file is there: look at its name, and from which folder the call goes out",
        errno.EISDIR: "that is a folder: name a file",
        errno.EACCES: "this user may not read or write it: give it another mode by chmod, or name another file",
    }
    return f"{name}: {known.get(fault.errno or 0, fault.strerror)}"
