"""The plan of a region that is cut: its jobs, how many lots each has, and how it was cut. A file beside it says of each lot in
which job it stands; the names of a job's lots are those of its script, which is named by its digest."""
import json
import re
import sys
from array import array
from collections import Counter, namedtuple

from .call import Refused
from .files import write
from .head import Head

FORM = 3  # of the file; a file of another form is refused
FILE, LOTS = "plan.json", "plan.lots"
NAME = re.compile(rb"^lot (\w+)", re.MULTILINE)

# own and ring are how many lots it derives, the own ones before its neighbours; the square is that of the town; level is 0, or
# the coarser head's; the output is told in the frame that is turned by the angle, in degrees; the corner is the least of its own
# lots there, in whole numbers, and the bounds are those between which all its lots stand; facts is the name of what a map says of
# its lots, or none; parts are the jobs of the level below, by their numbers there
Job = namedtuple("Job", "name own ring square level angle corner bounds facts parts")

# how a region was cut: lots of a job at most, how far grounds are grown, rings of neighbours, words for the program, and
# the errors of the coarser heads
Options = namedtuple("Options", "most reach rings words errors")


def tile_name(job):
    """The name of a job's tile says all that it is made by: the output, how many of its lots are own ones, its corner, and
    what a map says of them."""
    x, z = job.corner
    return f"{job.name}_{job.own}_{x}_{z}" + f"_{job.facts}" * bool(job.facts)


def digest(data):
    from hashlib import sha256  # it takes long to load, and not each call needs it

    return sha256(data).hexdigest()


def of_job(program, words, script):
    """The name of a job."""
    begin = "\0".join([program, *words, ""]).encode("latin-1")
    return digest(begin + script)[:20]


class Plan:
    """`deal` is the number of its job for each lot, in the script's order."""

    def __init__(self, folder, options, program, heads, asked, jobs, ground, deal):
        self.folder, self.options, self.program, self.heads = folder, options, program, heads
        self.asked, self.jobs, self.deal = asked, jobs, deal
        self.ground = ground  # the name of the map's ground, or none
        self.known = b""  # the bytes of its file, once they were asked for

    def tiles(self):
        """The names of its tiles."""
        return list(dict.fromkeys(map(tile_name, self.jobs)))

    def data(self):
        """The bytes of its file."""
        if self.known:
            return self.known
        held = {
            "form": FORM,
            "options": self.options,
            "program": self.program,
            "heads": [[head.dressed, head.city] for head in self.heads],
            "asked": self.asked,
            "jobs": self.jobs,
            "ground": self.ground,
            "lots": [len(self.deal), digest(bytes_of(self.deal))],
        }
        self.known = json.dumps(held, separators=(",", ":")).encode()
        return self.known

    def digest(self):
        return digest(self.data())

    def save(self, folder):
        write(folder / LOTS, bytes_of(self.deal))
        write(folder / FILE, self.data())

    def asks(self):
        """The numbers of the rules that ask."""
        return self.heads[0].asks()

    def angles(self):
        return {job.angle for job in self.jobs}

    def is_turned(self):
        """Whether its lots lie at more than one angle."""
        return len(self.angles()) > 1

    def drawn(self):
        """The jobs that are of the town itself."""
        return [job for job in self.jobs if job.level == 0]

    def script(self, job):
        """The bytes of a job's script, which are those that it is named by."""
        path = f"{self.folder}/jobs/{job.name}.cga"
        try:
            with open(path, "rb") as file:
                data = file.read()
        except FileNotFoundError:
            data = b""
        if of_job(self.program, self.options.words, data) != job.name:
            raise Refused(f"{path} isn't what the cut wrote: cut the script again")
        return data

    def lots_of(self, job):
        """The names of a job's lots, the own ones before its neighbours."""
        return [name.decode() for name in NAME.findall(self.script(job))]

    def own(self, job):
        return self.lots_of(job)[: job.own]

    def names(self):
        """The names of all lots, in the script's order."""
        lists = [iter(self.own(job)) for job in self.drawn()]
        return [next(lists[number]) for number in self.deal]

    def places(self, numbers):
        """The places of the own lots of some jobs, by the jobs' numbers."""
        found = {number: [] for number in numbers}
        for at, number in enumerate(self.deal):
            if number in found:
                found[number].append(at)
        return found


def bytes_of(deal):
    """The bytes of a list of numbers, the least digits first."""
    if sys.byteorder == "big":
        deal = array("I", deal)
        deal.byteswap()
    return deal.tobytes()


def read_deal(folder, jobs, number, known):
    """The number of its job for each lot. A ValueError where that isn't what the plan says."""
    data = (folder / LOTS).read_bytes() if (folder / LOTS).is_file() else b""
    if digest(data) != known or len(data) != 4 * number:
        raise ValueError
    deal = array("I")
    deal.frombytes(data)
    if sys.byteorder == "big":
        deal.byteswap()
    found = Counter(deal)
    if [found[at] for at in range(len(jobs))] != [job.own for job in jobs] or sum(found.values()) != number:
        raise ValueError  # not each lot in one job
    return deal


def read_plan(folder):
    if not (folder / FILE).exists():
        raise Refused(f"{folder} is no region that was cut: there is no {FILE}")
    try:
        held = json.loads((folder / FILE).read_bytes())
        if held.pop("form") != FORM:
            raise ValueError
        lots = held.pop("lots")
        plan = Plan(folder, deal=array("I"), **held)
        plan.options, plan.jobs = Options(*plan.options), [Job(*job) for job in plan.jobs]
        plan.heads = [Head(*head) for head in plan.heads]
        plan.deal = read_deal(folder, plan.drawn(), *lots)
        return plan
    except (ValueError, TypeError, KeyError):
        raise Refused(f"{folder / FILE} wasn't written by this tool: cut the script again") from None
