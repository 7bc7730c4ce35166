"""What a script comes to, by one running program that is fed what the script has grown by since it was asked last."""
import subprocess
from itertools import islice

from .obj import Town
from .pipe import Ended, while_written
from .program import ready
from .replies import counts_of, is_refused, replies
from .script import commands, is_open, text_of, without
from .sources import frugal

OPEN = ["# refused OpenBlock"]


class Session:
    def __init__(self, program):
        self.program = program
        self.process, self.fed, self.answers, self.stats = None, [], [], {}

    def close(self):
        if self.process:
            self.process.kill()
            self.process.communicate()
        self.process, self.fed, self.answers = None, [], []

    def stop(self):
        """Ends the program, from whatever thread; who waits for its replies is told."""
        if self.process:
            self.process.terminate()

    def begin(self):
        self.close()
        self.process = subprocess.Popen(
            [ready(self.program)], stdin=subprocess.PIPE, stdout=subprocess.PIPE, env=frugal()
        )
        self.replies = replies(line.decode("latin-1").rstrip("\n") for line in self.process.stdout)

    def ask(self, lines):
        """The script's lines, commands and replies, the shapes that came to nothing, and the town at its end."""
        lines = without(lines, "quiet", "print")
        found = commands(lines)
        left_open = found[-1:] if found and is_open(found[-1], lines) else []
        closed = lines[: left_open[0].first] if left_open else lines
        number = len(found) - len(left_open)
        if number == 0:
            return lines, found, [OPEN for _ in left_open], [], Town([])
        asks = ["faults", "print"] + ["model"] * any(command.words[:1] == ["dress"] for command in found) + ["stats"]
        got = self.got(closed, number, asks)
        faults, towns = got[number][1:], [reply for reply in got[number + 1 : -1] if not is_refused(reply)]
        self.stats = counts_of(got[-1])
        return lines, found, got[:number] + [OPEN for _ in left_open], faults, Town(towns[-1])

    def got(self, lines, number, asks):
        """The replies of the running program, which is begun anew where the script didn't only grow."""
        if not self.process or self.process.poll() is not None or lines[: len(self.fed)] != self.fed:
            self.begin()
        wanted = number + len(asks) - len(self.answers)
        with while_written(self.process, text_of(lines[len(self.fed) :] + asks)):
            got = list(islice(self.replies, wanted))
        if len(got) < wanted:
            status = self.process.wait()
            self.close()
            raise Ended(f"the program ended with status {status}")
        cut = len(got) - len(asks)
        self.fed, self.answers = list(lines), self.answers + got[:cut]
        return self.answers + got[cut:]
