"""What lines and blocks tell."""
from .apply import with_lot
from .command import block_line, city_line, command
from .fault import LineFault, Refused, block_text
from .form import line_found, line_told
from .lexer import is_long, tokens_of
from .rule import Entry, Grammar
from .sources import BREADTH, Sources


def command_of(version, line):
    return line_told(command(version), line)


def said_by(line):
    """The kinds and words of the tokens of a line; none where it is long or can't be read as tokens."""
    try:
        return [] if is_long(line) else [(token.kind, token.said) for token in tokens_of(line)]
    except LineFault:
        return []


def is_version_line(line):
    """It has just the tokens `version` and a number of value 2."""
    return said_by(line) == [("word", "version"), ("number", 2)]


def is_end_line(line):
    return said_by(line) == [("word", "end")]


def lines_found(read, lines):
    """What each line of a block says, where it says something, or the first faulty one."""
    found = []
    for number, line in enumerate(lines, 1):
        try:
            found.append(line_found(read, line))
        except LineFault as fault:
            raise Refused(block_text(number, fault)) from None
    return [said for said in found if said is not None]


def grammar_of(all_said):
    """Attributes and rules in the order of the lines; a rule before the first priority has 1."""
    attributes, rules, priority = [], [], 1
    for word, said in all_said:
        if word == "attr":
            attributes.append(said)
        elif word == "PRIORITY":
            priority = said
        elif word == "rule":
            rules.append(Entry(priority, said))
    return Grammar(tuple(attributes), tuple(rules))


def sources_of(all_said):
    """The lots in the order in which their names came, and the mode of the last order."""
    lots, mode = (), BREADTH
    for word, said in all_said:
        if word == "lot":
            lots = with_lot(said, lots)
        elif word == "order":
            mode = said
    return Sources(grammar_of(all_said), lots, mode)


def rules_of(lines):
    return grammar_of(lines_found(block_line, lines))


def city_of(lines):
    return sources_of(lines_found(city_line, lines))
