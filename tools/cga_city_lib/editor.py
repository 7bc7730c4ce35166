"""The editor that is opened at a line of the script, by a command that the user says."""
import os
import shlex
import subprocess
import threading
from typing import List

from .call import WrongValue

HELP = "say a command with {file} and perhaps {line}, as 'code -g {file}:{line}'"


def command(text: str) -> List[str]:
    """The words of a command, as a shell would take them apart."""
    try:
        words = shlex.split(text)
    except ValueError:
        raise WrongValue(f"a quote in it isn't closed: {HELP}") from None
    if not any("{file}" in word for word in words):
        raise WrongValue(f"it doesn't name the file: {HELP}")
    return words


def opened(words: List[str], path: str, line: int) -> str:
    """Begins the editor, by no shell; what is wrong, or nothing."""
    told = [word.replace("{file}", os.path.abspath(path)).replace("{line}", str(line)) for word in words]
    try:
        process = subprocess.Popen(
            told, stdin=subprocess.DEVNULL, stdout=subprocess.DEVNULL, stderr=subprocess.DEVNULL, start_new_session=True
        )
    except OSError as fault:
        return f"{told[0]}: {fault.strerror}"
    threading.Thread(target=process.wait, daemon=True).start()
    return ""
