"""What a job printed. A check reads what stands before the town and behind it, and never the town between."""
import re
from collections import namedtuple
from contextlib import contextmanager

from .call import Refused
from .exact import over_one
from .replies import counts_of, replies

OBJ = b"# cga_city obj\n"
PIECE = 1 << 16
PROGRAM = "program-"  # and some digits of its digest name the program of a cut
AGAIN = "take it away by `tools/districts tidy`, and run the job again"
PAST = (
    "past what a run takes, 400,000 shapes and 4,096 lots: cut with fewer lots a job (--lots); where its lots are of one "
    "district, with --rings 2; a lot that is past it alone can't be helped"
)

# of a job: its counts, its bill by symbol, and of each lot the box, as whole numbers over one; none where none are told
Told = namedtuple("Told", "counts bill one boxes")


def asking(grammar):
    """The numbers of the rules that ask, off what `grammar` or `dump` printed: nothing else is spelt so there."""
    return [line.split(":")[0] for line in grammar if "Scope.occ" in line]


def town_counts(line):
    """The counts in a line of `stats`; that of the expanded shapes isn't one of the town's."""
    return {word: number for word, number in counts_of([line]).items() if word != "expanded"}


def entry(line):
    """A symbol of a bill with its four numbers as whole ones: the front and the volume are in millionths."""
    _, _, symbol, *numbers = line.split()
    number, front, volume, unmeasured = (int(number.replace(".", "")) for number in numbers)
    return symbol, (number, front, volume, unmeasured)


def not_printed(path, why):
    return Refused(f"{path} isn't what its job prints, since {why}: {AGAIN}")


def demand_digest(path, data):
    """Refuses bytes that aren't those that the job printed, by the digest in the last line."""
    from hashlib import sha256  # a check needs none

    end = data.rfind(b"\n", 0, -1) + 1
    words = data[end:].split()
    if len(words) != 5 or words[3] != sha256(memoryview(data)[:end]).hexdigest().encode():
        raise not_printed(path, "its digest is that of other bytes")


@contextmanager
def reading(path):
    """Refuses an output of which a line can't be read."""
    try:
        yield
    except (ValueError, IndexError):
        raise not_printed(path, "a line of it can't be read") from None


class Printed:
    """The output of a job, of which the plan says what it is to be."""

    def __init__(self, folder, plan, job):
        self.path, self.plan, self.job = folder / "jobs" / f"{job.name}.out", plan, job
        self.rules = plan.heads[job.level]

    def broken(self, why):
        return not_printed(self.path, why)

    def told(self):
        with self.path.open("rb") as file, reading(self.path):
            _, faults, *bills = self.head(self.before_town(file))
            stats, *hulls = self.behind_town()
            if town_counts(stats).get("faults") != len(faults) - 1:
                raise self.broken("it has other faults than it counts")
            bill = dict(map(entry, bills[0][1:])) if bills else {}
            return Told(town_counts(stats), bill, *self.boxes(hulls))

    def faults(self):
        """The lines of faults of the job's own lots."""
        with self.path.open("rb") as file, reading(self.path):
            lines = self.head(self.before_town(file))[1][1:]
            own = set(self.plan.own(self.job)) if lines else ()
            return [line for line in lines if line.split()[2] in own]

    def before_town(self, file):
        text = b""
        while OBJ not in text:
            piece = file.read(PIECE)
            if not piece:
                break
            text += piece
        return text.partition(OBJ)[0].decode("latin-1")

    def head(self, text):
        """The replies to `grammar`, `faults` and perhaps `bill`."""
        refused = re.search(r"^# refused (.*)", text, re.MULTILINE)
        if refused:
            raise Refused(f"{self.path}: {self.why(refused.group(1))}")
        if not text.startswith("# ok\n" + self.rules.grammar()):
            raise self.broken("its rules are others than those of the cut")
        answers = list(replies(text.split("\n")[:-1]))[1:]
        number = 2 + (self.job.level == 0 and "bill" in self.plan.asked)
        if not text.endswith("\n") or len(answers) != number or answers[1][0] != f"# faults {len(answers[1]) - 1}":
            raise self.broken("its beginning isn't whole")
        return answers

    def why(self, cause):
        """What to do about a refusal."""
        if cause in ("OverBudget", "TooManyLots"):
            return f"refused {cause}: the job of the lot `{self.plan.lots_of(self.job)[0]}` is {PAST}"
        line = re.search(r" at (\d+)", cause)
        at = int(line.group(1)) - 1 - len(self.rules.city) if line else -1
        lots = self.plan.lots_of(self.job)
        named = f", in the line of the lot `{lots[at]}`" if 0 <= at < len(lots) else ""
        return f"refused {cause}{named}: mend that line, which tools/lint finds in the script, and cut it again"

    def from_last(self, mark):
        """What stands from the last such mark on, without its line feed; nothing where there is none."""
        with self.path.open("rb") as file:
            size, taken = file.seek(0, 2), PIECE
            while True:
                file.seek(max(0, size - taken))
                text = file.read()
                at = text.rfind(mark)
                if at >= 0 or taken >= size:
                    return text[at + 1 :] if at >= 0 else b""
                taken *= 8

    def behind_town(self):
        """The lines from that of the counts on, without the one that ends the output."""
        *lines, end = self.from_last(b"\n# stats ").decode("latin-1").split("\n")
        if end or not lines or not self.is_end(lines.pop().split(" ")) or not lines:
            raise self.broken("its end isn't that of this job")
        if town_counts(lines[0]).get("lots") != self.job.own + self.job.ring:
            raise self.broken("it has other lots")
        return lines

    def is_end(self, words):
        """Whether the last line is of this job, by the program of the cut."""
        return words[:3] == ["#", "job", self.job.name] and (PROGRAM + words[-1]).startswith(self.plan.program)

    def boxes(self, lines):
        """One, and for each lot its box, X before Z before Y."""
        if not lines:
            return 1, []
        words = " ".join(lines).split(" ")
        if len(words) != 9 * len(lines) or set(words[::9]) != {"#"} or set(words[1::9]) != {"hull"}:
            raise self.broken("a line of boxes isn't one")
        if words[2::9] != self.plan.lots_of(self.job):
            raise self.broken("its boxes are of other lots")
        try:
            one, columns = over_one([words[at::9] for at in (3, 6, 5, 8, 4, 7)])
        except ValueError:
            raise self.broken("a box isn't of numbers") from None
        if any(low > high for at in (0, 2, 4) for low, high in zip(columns[at], columns[at + 1])):
            raise self.broken("a box ends before it begins")
        return one, list(zip(*columns))
