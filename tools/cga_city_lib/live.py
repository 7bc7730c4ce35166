"""A town that one running program keeps: `cga_live`, which tells behind the reply to an edit what went and what came."""
import subprocess
from itertools import islice

from .pipe import Ended, while_written
from .program import output
from .replies import replies
from .script import text_of, words_of
from .sources import frugal


class Lines:
    """The lines of replies alone, from a program's output; changes are handed on as soon as they are told."""

    def __init__(self, output, changed):
        self.output, self.changed = output, changed

    def __iter__(self):
        return self

    def __next__(self):
        for line in self.output:
            if not line.startswith(b"# changed "):
                return line.decode("latin-1").rstrip("\n")
            gone, come = map(int, line.split()[2:4])
            told = [line[2:-1] for line in islice(self.output, gone + come)]
            self.changed(told[:gone], told[gone:])
        raise StopIteration

    def many(self, number):
        """The next lines, between which nothing changes."""
        text = b"".join(islice(self.output, number)).decode("latin-1")
        return text[:-1].split("\n") if text else []


class Live:
    """What is changed is handed on as soon as it is told: the lines that went, and those that came."""

    def __init__(self, program, changed):
        self.changed = changed
        self.process = subprocess.Popen(
            [program], env=frugal(), stdin=subprocess.PIPE, stdout=subprocess.PIPE, bufsize=1 << 16
        )
        self.replies = replies(Lines(self.process.stdout, self.change))

    def change(self, gone, come):
        self.changed(gone, come)

    def ask(self, lines, number):
        """The replies to lines that have so many. Behind the last of them nothing may have changed."""
        with while_written(self.process, text_of(lines)):
            got = list(islice(self.replies, number))
        if len(got) < number:
            raise Ended(f"the program ended with status {self.process.wait()}")
        return got

    def close(self):
        self.process.kill()
        self.process.communicate()

    def stop(self):
        """Ends the program, from whatever thread; who waits for its replies is told."""
        self.process.terminate()


def asking(program):
    """A function that gives the replies to lines, none where the program fails. What would print is `stats`, and changes are
    left out."""

    def ask(lines):
        quiet = ["stats" if words_of(line) in (["quiet"], ["print"], ["model"]) else line for line in lines]
        status, out = output(program, text_of(quiet))
        told = Lines(iter(out.splitlines(True)), lambda *_: None)
        return list(replies(told)) if status == 0 else []

    return ask


def tells_changes(program):
    """Whether a program is one that tells what an edit changed."""
    script = b'rules\n1: a -> S(1r, 1, 1r) I("cube")\nend\nlot a 1 0 0 1 1 a\nstats\n'
    try:
        done = subprocess.run([program], input=script, stdout=subprocess.PIPE, stderr=subprocess.DEVNULL, timeout=60)
    except subprocess.TimeoutExpired:
        return False
    return b"\n# changed 0 1\n" in done.stdout
