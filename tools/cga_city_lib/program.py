"""The program that replies to scripts: the launcher beside the tools, or another. What runs it is loaded late, since it takes
long, and not each call of a tool needs it."""
import os
from pathlib import Path

from .call import Refused, WrongValue
from .strangers_text import told

LAUNCHER = Path(__file__).resolve().parent.parent.parent / "cga_city"
MOST_LOTS = 4096  # of a run
TOLD = set()


def take_program(words):
    """The program that the words name by `--program PATH`, else the launcher, and the other words."""
    if "--program" in words[:-1]:
        at = words.index("--program")
        return words[at + 1], words[:at] + words[at + 2 :]
    return str(LAUNCHER), words


def program_word(path):
    """A program that can be run, by its path or, without a folder, by its name on the PATH."""
    folders = [""] if os.path.dirname(path) else os.environ.get("PATH", "").split(os.pathsep)
    places = [os.path.join(folder, path) for folder in folders]
    if path and any(os.path.isfile(place) and os.access(place, os.X_OK) for place in places):
        return path
    found = "is a folder" if os.path.isdir(path) else "can't be run" if os.path.exists(path) else "isn't there"
    raise WrongValue(f"`{told(path)}` {found}: name a program, such as ./cga_city")


def ready(program=None, name="cga_main"):
    """The program that is named. In the launcher's place stands what the launcher would run, or another program of the
    repository: the proved one, else one that is built without a proof once and kept, and a line says so."""
    if program not in (None, str(LAUNCHER)):
        return program
    from .kept import NONE, here

    top = str(LAUNCHER.parent)
    kind, found, why = here(top, name)
    if kind == NONE:
        build(name)
        kind, found, why = here(top, name)
        if kind == NONE:
            raise Refused(f"{name} isn't built: {why}")
    tell(name, why)
    return found.path


def is_here(name):
    """Whether a proved program or a kept one is here."""
    from .kept import NONE, here

    return here(str(LAUNCHER.parent), name)[0] != NONE


def is_proved(name):
    from .kept import PROVED, here

    return here(str(LAUNCHER.parent), name)[0] == PROVED


def build(name):
    """Builds it by the launcher, which says how far it is. An interrupt ends both."""
    import subprocess

    if subprocess.run([str(LAUNCHER), "--build", name], stdin=subprocess.DEVNULL).returncode:
        raise Refused(f"{name} isn't there and can't be built; the lines above say why")


def tell(name, why):
    """Says once of each program that it isn't proved."""
    if why and name not in TOLD:
        from .kept import say_unproved

        say_unproved(why)
        TOLD.add(name)


def asking(program):
    """A function that gives the replies to lines, none where the program fails."""
    from .replies import replies
    from .script import text_of

    def ask(lines):
        status, out = run(program, text_of(lines))
        return list(replies(out)) if status == 0 else []

    return ask


def output(program, script):
    """The status of a run of the script, and the bytes of its replies."""
    import subprocess

    from .sources import frugal

    done = subprocess.run([ready(program)], input=script, stdout=subprocess.PIPE, env=frugal())
    return done.returncode, done.stdout


def run(program, script):
    """The status of a run of the script, and its replies' lines."""
    status, out = output(program, script)
    return status, out.decode("latin-1").split("\n")[:-1]
