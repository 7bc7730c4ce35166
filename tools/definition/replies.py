"""What a line does, and what it is replied to. An effect is the state afterwards, and the reply."""
from dataclasses import replace

from .apply import apply
from .asset import asset_of, dressed, model_text_of, undressed, with_asset
from .bill import bill_of, bill_text_of
from .derivation import members, run_to
from .fault import LineFault, Refused, line_text, refusal_text_of
from .history import noted, redone, undone
from .reports import drawn_in, fault_text_of, faults_in, obj_text_of, stats_text_of
from .run import judged, judged_text, trace_text_of
from .sources import names_of
from .state import Block, State
from .syntax import dump_of, grammar_text
from .told import city_of, command_of, is_end_line, is_version_line, rules_of
from .touched import touched_count

BUDGETS = {1: 100000, 2: 400000}


def ok_reply(s):
    """But not after `quiet`."""
    return "" if s.quiet else "# ok\n"


def budget_of(s):
    return BUDGETS[s.version]


def derived(s):
    """The members of the derivation of the current sources."""
    return members(budget_of(s), s.sources)


# ---- edits


def changed(s, kept, edit):
    """An edit goes through, with what the history then keeps."""
    new = apply(s.sources, edit, budget_of(s))
    number = touched_count(s.sources, new, budget_of(s))
    return replace(s, sources=new, kept=kept, number=number), ok_reply(s)


def edited(s, edit):
    """In version 2 the sources before it are noted."""
    return changed(s, s.kept if s.version == 1 else noted(s.kept, s.sources), edit)


def stepped(s, none, step):
    """Back to former sources, or on to later ones: the edit that sets them whole."""
    if step is None:
        raise Refused(none)
    taken, left = step
    return changed(s, left, ("whole", taken))


# ---- reports


def asked_lots(s, name):
    """Those of the city, or the one that is named."""
    if name is None:
        return names_of(s.sources.lots)
    if name not in names_of(s.sources.lots):
        raise Refused("NoLot", name)
    return [name]


def printed(s, name):
    lots = asked_lots(s, name)
    return obj_text_of(lots, drawn_in(lots, derived(s)), s.decimals)


def shown(s, name):
    lots = asked_lots(s, name)
    return model_text_of(s.wardrobe, lots, drawn_in(lots, derived(s)), s.decimals)


def run_of(s):
    """The run of the current sources."""
    return run_to(s.sources, budget_of(s))


REPORTS = {
    "print": printed,
    "model": shown,
    "faults": lambda s, _: fault_text_of(faults_in(names_of(s.sources.lots), derived(s))),
    "grammar": lambda s, _: grammar_text(s.sources.grammar),
    "stats": lambda s, _: stats_text_of(s.sources.lots, derived(s), s.number),
    "dump": lambda s, _: dump_of(s.sources),
    "bill": lambda s, _: bill_text_of(bill_of(drawn_in(names_of(s.sources.lots), derived(s)))),
    "trace": lambda s, _: trace_text_of(run_of(s)),
}


# ---- assets


def clothed(s, wardrobe):
    return replace(s, wardrobe=wardrobe), ok_reply(s)


# ---- lines outside a block


def done_by(s, word, said):
    """What a command asks for."""
    if word in REPORTS:
        return s, REPORTS[word](s, said)
    if word in ("rules", "city", "asset", "judge"):
        return replace(s, block=Block(word, said)), ""
    if word == "quiet":
        return replace(s, quiet=True), ""
    if word == "dress":
        return clothed(s, dressed(s.wardrobe, *said))
    if word == "undress":
        return clothed(s, undressed(s.wardrobe, said))
    if word == "undo":
        return stepped(s, "NoUndo", undone(s.kept, s.sources))
    if word == "redo":
        return stepped(s, "NoRedo", redone(s.kept, s.sources))
    return edited(s, (word, said))


def asked(s, line):
    """A blank line asks for nothing; any other may no longer be followed by `version 2`."""
    begun = replace(s, fresh=False)
    try:
        word, said = command_of(s.version, line)
    except LineFault as fault:
        return begun, refusal_text_of(Refused(line_text(fault)))
    if word == "blank":
        return s, ""
    return unless_refused(begun, lambda: done_by(begun, word, said))


def unless_refused(s, done):
    """A refusal changes nothing."""
    try:
        return done()
    except Refused as refused:
        return s, refusal_text_of(refused)


def second(s):
    """The line that makes the version 2 comes first, so that nothing is there yet."""
    return State(decimals=s.decimals, fresh=False, version=2), "# ok\n"


def outside(s, line):
    return second(s) if s.fresh and is_version_line(line) else asked(s, line)


# ---- lines of a block


def ended(s, block):
    """What the end of a block does: it makes an edit or an asset, or its first faulty line is refused."""
    if block.kind == "rules":
        return edited(s, ("rules", rules_of(block.lines)))
    if block.kind == "city":
        return edited(s, ("whole", city_of(block.lines)))
    if block.kind == "asset":
        return clothed(s, with_asset(s.wardrobe, block.name, asset_of(block.lines)))
    return s, judged_text(judged(run_of(s), block.lines))


def in_block(s, block, line):
    if is_end_line(line):
        closed = replace(s, block=None)
        return unless_refused(closed, lambda: ended(closed, block))
    return replace(s, block=replace(block, lines=(*block.lines, line))), ""


def effect(s, line):
    """What one line does."""
    return outside(s, line) if s.block is None else in_block(s, s.block, line)


def at_end(s):
    """A block that the script's end leaves open is refused."""
    return "" if s.block is None else refusal_text_of(Refused("OpenBlock"))
