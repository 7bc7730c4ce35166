"""Many runs of a program, each of a short script: some shells begin them, so that they don't wait for a process as large as this
one to begin each."""
import subprocess
import tempfile
from pathlib import Path
from typing import Iterator, List, Sequence

from .sources import frugal

# the scripts are the files 0, 1, .. of a folder: a shell takes each so many'th, and says once its output is whole
SHELL = 'at=$2; while [ -e "$1/$at" ]; do "$0" <"$1/$at" >"$1/$at.out" || exit; echo; at=$((at + $3)); done'


def outputs(program: str, scripts: Sequence[bytes], workers: int) -> Iterator[bytes]:
    """The output of each script, in their order, until one fails."""
    with tempfile.TemporaryDirectory() as folder:
        for at, script in enumerate(scripts):
            (Path(folder) / str(at)).write_bytes(script)
        shells = [begun(program, folder, at, workers) for at in range(workers)]
        try:
            for at in range(len(scripts)):
                if not shells[at % workers].stdout.readline():  # type: ignore[union-attr]
                    return
                yield (Path(folder) / f"{at}.out").read_bytes()
        finally:
            end(shells)


def begun(program: str, folder: str, at: int, workers: int) -> "subprocess.Popen[bytes]":
    words = ["sh", "-c", SHELL, program, folder, str(at), str(workers)]
    return subprocess.Popen(words, stdin=subprocess.DEVNULL, stdout=subprocess.PIPE, env=frugal())


def end(shells: List["subprocess.Popen[bytes]"]) -> None:
    for shell in shells:
        shell.terminate()
        shell.communicate()
