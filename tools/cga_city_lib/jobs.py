"""The folder of a region that is cut. Each file of a job is named by the digest of its script and of the program that
runs it: what another script or another program printed has another name, and what was run once isn't run again."""
import os
from array import array
from pathlib import Path

from . import cut_index
from .call import Refused
from .deal import bounds_of, coarser, singly, whole_districts, with_rings
from .engines import engines
from .files import write
from .findings import FILE as FOUND
from .findings import Findings, Lots
from .of_plan import take_others_away
from .map_facts import kept_facts, unused
from .plan import Job, Plan, digest, of_job
from .printed import PROGRAM
from .progress import counted
from .region import Region

SCRIPT = "region.cga"  # a copy of the script, for the cuts that checks make
CUBE = b'version 2\nrules\n1: a -> S(1r, 1, 1r) I("cube")\nend\nlot a 1 0 0 1 1 a\nprint\n'
HALF_WRITTEN = (".part", ".piece", ".new")  # until they are whole, files end so
ALWAYS = ["grammar", "faults", "print", "stats"]  # each job is asked for these


class Program:
    """A copy of the program in the folder, named by its digest: the program may be built anew while jobs run."""

    def __init__(self, path, words):
        from shutil import which  # it takes long to load, and a cut alone needs it

        found = which(path)
        if found is None:
            raise Refused(f"{path} is no program that can be run")
        self.data, self.words = Path(found).read_bytes(), words
        if words and not takes_decimals(found, words):
            raise Refused(f"{path} doesn't print with {' '.join(words)}: name a program that does by --program")
        self.name = PROGRAM + digest(self.data)[:20]

    def job(self, script):
        """The name of a job."""
        return of_job(self.name, self.words, script)

    def save(self, folder):
        path = folder / self.name
        if write(path, self.data):
            path.chmod(0o755)


def takes_decimals(program, words):
    """Whether the program prints as its words say; one that knows no words would print as ever."""
    import subprocess

    out = subprocess.run([program, *words], input=CUBE, stdout=subprocess.PIPE).stdout
    zero = f"{0:.{words[1]}f}"
    return f"\nv {zero} {zero} {zero}\n".encode() in out


def asked(region, has_rings):
    """What each job is asked for: what a check reads stands before the town and behind it."""
    bill = ["bill"] if "bill" in region.counted else []
    model = ["model"] if "model" in region.counted else []
    return ["grammar", "faults", *bill, "print", *model, *(["trace"] if has_rings else []), "stats"]


class Cut:
    """A region with all that its jobs come from."""

    def __init__(self, folder, program, region, heads, options, facts, coarser):
        self.coarser = coarser  # the digests of the coarser heads' scripts
        self.folder, self.program, self.region, self.heads, self.options = folder, program, region, heads, options
        self.facts = facts
        self.asks = heads[0].asks()

    def shares(self):
        """How many districts there are, where that is asked, and the shares of the jobs."""
        region, options = self.region, self.options
        if not self.asks:
            return None, singly(region, options)
        lots, findings = Lots(region), Findings(self.folder)
        together = lots.pairs(findings.together)
        if options.rings:
            return None, with_rings(region, options, together, lots.pairs(findings.seen), lots.numbers(findings.rings))
        return whole_districts(region, options, together)

    def levels(self, shares, listed, deal):
        """The jobs of the town, and of each coarser head in larger squares."""
        kept = []
        for share in shares:
            for at in share.own:
                deal[at] = len(kept)
            kept.append(share._replace(own=array("I", share.own) if len(self.heads) > 1 else (), ring=()))
            yield self.job(share, listed, 0)
        for level in range(1, len(self.heads)):
            sizes = [len(share.own) for share in kept]
            kept = [
                share._replace(own=array("I", sorted(at for part in share.parts for at in kept[part].own)))
                for share in coarser(kept, sizes, self.options.most * 4**level)
            ]
            yield from (self.job(share, ALWAYS, level) for share in kept)

    def job(self, share, listed, level):
        lines = [self.region.lots[at] for at in [*share.own, *share.ring]]
        script = self.heads[level].script(lines, listed)
        name, ring = self.program.job(script), share.ring
        write(self.folder / "jobs" / f"{name}.cga", script)
        facts = self.facts.write_for(self.folder, [line.split(" ", 2)[1] for line in lines[: len(share.own)]])
        bounds = bounds_of(self.region, [*share.own, *ring]) if ring else share.bounds
        size = len(share.own), len(ring), share.square, level, share.angle, share.corner, bounds, facts, share.parts
        return Job(name, *size)

    def make(self):
        """Gives the plan and the number of districts. Files that are as they are to be are left alone."""
        (self.folder / "jobs").mkdir(parents=True, exist_ok=True)
        number, shares = self.shares()
        listed = asked(self.region, bool(self.asks and self.options.rings))
        deal = array("I", bytes(4 * len(self.region.lots)))
        jobs = list(counted(self.levels(shares, listed, deal), "jobs written", 0))
        plan = Plan(self.folder, self.options, self.program.name, self.heads, listed, jobs, self.facts.name, deal)
        self.program.save(self.folder)
        self.facts.save(self.folder)
        write(self.folder / SCRIPT, self.region.data)
        for name, text in engines(self.program.name, self.options.words, jobs):
            write(self.folder / name, os.fsencode(text))
        plan.save(self.folder)
        take_others_away(self.folder, plan.digest())
        self.save_index(number if self.asks else None)
        return plan, number

    def save_index(self, districts):
        data = self.region.data
        cut_index.save(
            self.folder,
            script=digest(data),
            coarser=self.coarser,
            found=digest(cut_index.bytes_in(self.folder / FOUND)),
            first=cut_index.first_lot(data, self.region.table),
            districts=districts,
        )


def cut_again(folder, plan):
    """Cuts what was cut, by what is found by now."""
    program = Program(str(folder.absolute() / plan.program), plan.options.words)
    region, coarser = Region(folder / SCRIPT), cut_index.kept_coarser(folder)
    return Cut(folder, program, region, plan.heads, plan.options, kept_facts(folder), coarser).make()[0]


def todo(folder, plan):
    """The names of the jobs that weren't run."""
    names = dict.fromkeys(job.name for job in plan.jobs)
    run = set(os.listdir(folder / "jobs"))
    return [name for name in names if f"{name}.out" not in run]


def tiles_to_make(folder, plan):
    """The names of the tiles that aren't there."""
    return [name for name in plan.tiles() if not (folder / "tiles" / f"{name}.glb").exists()]


def leftovers(folder, plan, refused):
    """The files of no job of the cut, the outputs that are refused, and what is half written."""
    names = {job.name for job in plan.jobs}
    for path in (folder / "jobs").iterdir():
        name = path.name.partition(".")[0]
        if name not in names or name in refused and path.suffix != ".cga" or path.suffix in HALF_WRITTEN:
            yield path
    yield from (path for path in folder.glob(f"{PROGRAM}*") if path.name != plan.program)
    yield from [*folder.glob("todo-*"), *folder.glob("logs/*")]
    tiles = {*plan.tiles(), f"ground_{plan.ground}"}
    yield from (path for path in folder.glob("tiles/*.glb") if path.stem not in tiles)
    yield from unused(folder, {job.facts for job in plan.jobs})
    yield from (path for path in [*folder.glob("*.*.*"), *folder.glob("tiles/*.*.*")] if path.suffix in HALF_WRITTEN)
