"""What tools/districts does for each of its words. It is called often, so what one word alone needs is loaded for that word."""
import os
import sys
from pathlib import Path

from .call import FirstWord, Refused, WrongValue, number_in
from .changed_cut import Wanted, changed_cut
from .checking import bill_text
from .compared import Compared
from .cut_index import FILE as INDEX
from .exact import parted
from .files import alone, can_write, write
from .head import head_of
from .jobs import Cut, Program, cut_again, leftovers, tiles_to_make, todo
from .map_facts import MapFacts
from .number_words import check_digits
from .numerals import numeral
from .of_plan import line_of, of_others, take_others_away
from .plan import Options, digest, read_plan
from .program import MOST_LOTS, is_proved, program_word, ready
from .quadtree import EDGE
from .region import Region
from .over_angles import sentence, unseen_pairs, unseen_text
from .strangers_text import told
from .survey import Survey

AGAIN = 3  # the status where jobs are to be run again


def chosen_program(named, asks=()):
    """The program of the jobs: the one that is named, else the one that tells boxes, which only asks need: where no rule asks
    and it isn't proved, a proved cga_main goes before."""
    if named:
        return named
    return ready(name="cga_main" if not asks and not is_proved("cga_hulls") and is_proved("cga_main") else "cga_hulls")


def cut(words):
    facts = MapFacts(words.ground)
    plan, number = cut_by_changes(words, facts) or cut_whole(words, facts)
    left = len(todo(words.folder, plan))
    print(
        f"{words.folder}: {len(plan.deal)} lots in {len(plan.drawn())} jobs{at_angles(plan)}, {left} to run; "
        f"{kind(plan.asks(), number)}"
    )


def cut_by_changes(words, facts):
    """The plan and the number of districts, where a former cut lies there and only lots changed; else None."""
    if not (words.folder / INDEX).exists():
        return None
    scripts = [Path(path).read_bytes() for path in [words.script, *(path for path, _ in words.coarser)]]
    with alone(words.folder):
        try:
            plan = read_plan(words.folder)
            program = Program(chosen_program(words.program, plan.asks()), words.decimals)
        except Refused:
            return None  # a cut from nothing says why, or mends it
        return changed_cut(words.folder, plan, Wanted(scripts, program, options_of(words, plan.asks()), facts))


def options_of(words, asks):
    return Options(
        words.lots, words.reach, words.rings if asks else 0, words.decimals, [error for _, error in words.coarser]
    )


def cut_whole(words, facts):
    region = Region(words.script)
    coarse = [Region(path, has_lots=False) for path, _ in words.coarser]
    heads = [head_of(head, chosen_program(words.program)) for head in [region, *coarse]]
    asks = heads[0].asks()
    refuse(region, words, heads)
    program = Program(chosen_program(words.program, asks), words.decimals)
    facts.demand(words.ground, region.names)
    words.folder.mkdir(parents=True, exist_ok=True)
    with alone(words.folder):
        coarser = [digest(head.data) for head in coarse]
        return Cut(words.folder, program, region, heads, options_of(words, asks), facts, coarser).make()


def at_angles(plan):
    return f" at {len(plan.angles())} angles" if plan.is_turned() else ""


def kind(asks, districts):
    """How the lots were dealt."""
    if not asks:
        return "no rule asks"
    return (
        "with their neighbours, since a rule asks" if districts is None else f"{districts} districts, since a rule asks"
    )


def refuse(region, words, heads):
    """Refuses what can't be had together."""
    for (path, error), head in zip(words.coarser, heads[1:]):
        if not is_length(error):
            raise Refused(f"{error} isn't a number of units by which {path} may be off")
        if head.asks():
            raise Refused(f"{path}: rule {', '.join(head.asks())} asks by Scope.occ, which a coarser head can't")
    if words.rings and heads[0].asks() and region.counted:
        raise Refused(
            f"{region.path}: `{region.counted[0]}` can't be had with --rings, since jobs then tell of their neighbours, too: "
            "leave it out"
        )


def check(words):
    with alone(words.folder):
        return checked(words.folder, words.folder, words.all)


def checked(folder, to, is_whole=False):
    """Checks the jobs of a folder, and writes what they count to another one, or the same."""
    plan = read_plan(folder)
    begin_check(to, plan)
    compared = Compared(folder, plan, is_whole)
    found = compared.outcome()
    if found:
        left = len(todo(folder, cut_again(folder, plan)))
        print(f"{found}: {left} jobs to run; run them, and check again", file=sys.stderr)
        return AGAIN
    counts, bill = compared.sums()
    text = " ".join(f"{word} {number}" for word, number in counts.items())
    if can_write(to):
        tell(to, {"town.bill": bill_text(bill)} if "bill" in plan.asked else {}, text, line_of(plan.digest()))
    if plan.asks() and plan.is_turned():
        tell_unseen(to, plan, [compared.told[job.name] for job in plan.drawn()])
    if can_write(folder):
        compared.keep()
    print(f"{folder}: {text}")
    return 0


def tell_unseen(to, plan, told):
    """Tells between which lots no question is asked; once, where that can be written down."""
    path = to / "town.unseen"
    pairs = unseen_pairs(plan, told)
    is_new = not can_write(to) or write(path, unseen_text(pairs).encode("latin-1") + line_of(plan.digest()))
    if pairs and is_new:
        print(sentence(pairs, path), file=sys.stderr)


def begin_check(to, plan):
    """No counts are there until the check has passed, and nothing of another plan."""
    if can_write(to):
        take_others_away(to, plan.digest())
        if (to / "counts").exists():
            (to / "counts").unlink()


def tell(to, texts, counts, end):
    for name, text in {**texts, "counts": counts + "\n"}.items():
        write(to / name, text.encode("latin-1") + end)


def joined(words):
    from .joining import join

    to = words.to or words.folder
    to.mkdir(parents=True, exist_ok=True)
    with alone(words.folder):
        status = checked(words.folder, to)
        if status == 0:
            for path in join(words.folder, read_plan(words.folder), words.workers, to):
                print(f"{path}: {path.stat().st_size} bytes")
    return status


def tiled(words):
    from .tiles import write_tiles

    with alone(words.folder):
        status = checked(words.folder, words.folder)
        if status == 0:
            plan = read_plan(words.folder)
            survey = Survey(words.folder, plan, plan.jobs)
            survey.demand()
            print(write_tiles(words.folder, plan, survey.told, words.workers))
    return status


def status(words):
    plan = read_plan(words.folder)
    survey = Survey(words.folder, plan, plan.jobs)
    print(f"{words.folder}: {len(survey.told)} jobs run, {len(survey.to_run)} to run, {len(survey.refused)} refused")
    for reason in survey.refused.values():
        print(reason)
    for path in of_others(words.folder, plan.digest()):
        print(f"{path} is of another cut: the next check takes it away")


def tile(words):
    from .tiles import write_some

    write_some(words.folder, words.name)


def names(words):
    for name in (tiles_to_make if words.tiles else todo)(words.folder, read_plan(words.folder)):
        print(name)


def tidy(words):
    """Takes away outputs that are refused, what is half written, and what is of no job of the cut."""
    with alone(words.folder):
        plan = read_plan(words.folder)
        survey = Survey(words.folder, plan, plan.jobs, is_whole=True)
        gone = list(leftovers(words.folder, plan, survey.refused))
        for path in gone:
            take_away(path)
    print(f"{words.folder}: {len(gone)} files taken away")


def take_away(path):
    """A folder stands in the place of an output if somebody put it there."""
    if path.is_dir() and not path.is_symlink():
        from shutil import rmtree

        rmtree(path)
    else:
        path.unlink()


def decimals(word):
    return ["--decimals", str(number_in(0, 9, int)(word))]


def is_length(word):
    """Whether it spells a number from 0 on that isn't beyond all numbers of scripts."""
    try:
        numerator, denominator = parted(word)
    except ValueError:
        return False
    return 0 <= numerator < EDGE * denominator


def length(word):
    """A length from 0 on, exactly, as a script would spell it."""
    check_digits(word, word)
    text = numeral(word)
    if text is None or not is_length(text):
        raise WrongValue(f"`{told(word)}` isn't a number from 0 on that scripts can have")
    return text


def add_folder(known):
    known.add_argument("folder", type=Path)


def add_cut(known):
    known.add_argument("script", reads=True)
    add_folder(known)
    known.add_argument("--lots", type=number_in(1, MOST_LOTS, int), default=500)
    known.add_argument("--reach", type=length, default="0")
    known.add_argument("--rings", type=number_in(0, 64, int), default=0)
    known.add_argument("--decimals", type=decimals, default=[])
    known.add_argument("--coarser", nargs=2, action="append", default=[])
    known.add_argument("--program", type=program_word)
    known.add_argument("--ground", type=Path)


def add_check(known):
    add_folder(known)
    known.add_argument("--all", action="store_true")


def add_tile(known):
    add_folder(known)
    known.add_argument("name", nargs="+")


def add_todo(known):
    add_folder(known)
    known.add_argument("--tiles", action="store_true")


def add_workers(known):
    add_folder(known)
    known.add_argument("--workers", type=number_in(1, 256, int), default=os.cpu_count() or 1)


def add_join(known):
    add_workers(known)
    known.add_argument("--to", type=Path)


def words():
    others = {"cut": add_cut, "check": add_check, "join": add_join, "tiles": add_workers}
    others.update({"tile": add_tile, "todo": add_todo})
    return FirstWord({word: others.get(word, add_folder) for word in DOES})


def main(word):
    """Does what the words say, and gives the status."""
    return DOES[word.word](word)


DOES = {"cut": cut, "check": check, "join": joined, "tile": tile, "tiles": tiled, "status": status, "todo": names}
DOES["tidy"] = tidy
