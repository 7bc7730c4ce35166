"""`--checked`: a reply by `rt try`, which compiles the same code with its checks for this call, and hands out at most 1 MiB."""
import os
import re
import signal
import sys
import tempfile

from .begun import begun, fail, heeding_signals, last_lines, need_rt
from .sources import say

MOST = 67108864  # the bytes of the longest script
SECONDS = "300"
NO_ANSWERS = [
    (
        "the limit on each",
        "the replies come to more than 1 MiB: leave out --checked, or ask for less",
    ),
    ("time limit", "the run took too long: leave out --checked, which is much faster"),
]


def take_script(path):
    """Takes the script from standard input to a file, since rt takes a pipe that pauses for ended."""
    if os.isatty(0):
        say("a script is read from the terminal; Ctrl-D on a line of its own ends it, and then it gets its replies")
    size = 0
    with open(path, "wb") as script:
        while size <= MOST:
            try:
                data = os.read(0, 1 << 20)
            except OSError:
                say("cannot read")
                sys.exit(3)
            if not data:
                return
            script.write(data)
            size += len(data)
    fail(f"the script has more than {MOST} bytes, which is the most")


def no_answer(status, err):
    """Says why there is none, from what rt said."""
    say("there is no answer, and no part of one is handed out")
    with open(err, encoding="utf-8", errors="replace") as file:
        why = [line for line in file if line.startswith("checked: no-answer")][-1:]
    for sign, told in NO_ANSWERS:
        if why and sign in why[0]:
            fail(told)
    say(f"rt try ended with status {status}; the last that it said:")
    last_lines(err)
    sys.exit(1)


def hand_out(path):
    with open(path, "rb") as out:
        left = out.read()
    try:
        while left:
            left = left[os.write(1, left) :]
    except BrokenPipeError:
        sys.exit(128 + signal.SIGPIPE)  # as a program ends whose reader goes
    except OSError:
        say("cannot write")
        sys.exit(4)


def reply_checked(program, words, is_read):
    """The status of the run, or of the call where there is no answer."""
    need_rt()
    say(
        "THIS ANSWER IS UNPROVED: the same code is compiled with checks and without proofs, which takes a minute or two"
    )
    with heeding_signals(), tempfile.TemporaryDirectory(prefix="cga_city-") as work:
        script, out, err = (os.path.join(work, name) for name in ("script", "out", "err"))
        open(script, "wb").close()
        if is_read:
            take_script(script)
        with open(script, "rb") as asked, open(out, "wb") as replies, open(err, "wb") as said:
            with begun(
                ["rt", "try", "--seconds", SECONDS, "--", *words],
                cwd=program.folder,
                stdin=asked,
                stdout=replies,
                stderr=said,
            ) as job:
                job.wait()
        with open(err, encoding="utf-8", errors="surrogateescape") as file:
            told = file.read()
        if not re.match(r"run=ended status=", told.rstrip("\n").rpartition("\n")[2]):
            no_answer(job.returncode, err)
        sys.stderr.write(re.split(r"^checked: ", told, maxsplit=1, flags=re.MULTILINE)[0])
        hand_out(out)
    return job.returncode
