"""The town of a script that is edited, by what a program prints of it: for programs that don't tell what an edit changed."""
from .drawn import Meshes
from .replies import is_refused
from .script import is_open
from .session import Session


class PrintedTown:
    """Shows what scripts come to: of the whole town that is printed each time only the difference is told."""

    def __init__(self, program, shown):
        self.program, self.session, self.shown, self.meshes = program, Session(program), shown, Meshes()
        self.lines, self.stats, self.worked, self.drawn = [], None, None, None

    def stop(self):
        self.session.stop()

    def show(self, lines, _):
        """The reply to each command of a script, and the shapes that came to nothing."""
        self.lines = lines
        return self.put(lines)

    def turn(self, values):
        """Sets attributes beside the script's values; what is said of those that are refused, by their names."""
        lines = [f"attr {name} = {value}" for name, value in values.items()]
        answers, _ = self.put(self.lines + lines)
        told = zip(values, lines, answers[-len(lines) :])
        return {name: f"{line}: {answer[0][2:]}" for name, line, answer in told if answer != ["# ok"]}

    def put(self, lines):
        lines, commands, answers, faults, town = self.session.ask(lines)
        self.stats = self.session.stats
        blocks = [(command, answer) for command, answer in zip(commands, answers) if command.is_block]
        is_lost = any(is_open(command, lines) or is_refused(answer) for command, answer in blocks)
        self.drawn = None if is_lost and self.shown.drawn else self.meshes.lines(town)
        return answers, faults

    def publish(self, **head):
        """Tells the pages what is drawn in one step, with values of the head."""
        if self.drawn is None:
            self.shown.put(**head)
        else:
            head["meshes"] = {**self.meshes.told, **head.get("meshes", {})}
            self.shown.replace((line.encode() for line in self.drawn), **head)
        self.drawn = None
