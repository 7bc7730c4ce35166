"""How a script falls into lines, tokens and commands; each command has one reply where nothing is quiet."""
import re
from collections import namedtuple

RESERVED = "T S Rx Ry Rz I Subdiv Repeat Comp NIL Scope rand floor ceil and or not".split()
COMMANDS = "rules put drop attr priority lot unlot quiet print faults grammar stats".split()
COMMANDS_2 = "order city dump undo redo asset dress undress model bill trace judge".split()
BLOCK_WORDS = "PRIORITY end version breadth depth".split()
EDITS = "rules put drop attr priority lot unlot order city asset dress undress".split()
LONGEST = 4096
NO_BLOCK = "rules stand in a block: write a line `rules` before this one, and a line `end` behind the rules"

TOKEN = re.compile(r'\d+(?:\.\d+)?r?(?![A-Za-z_])|[A-Za-z_]\w*|"\w*"|->|==|!=|<=|>=|[^ \t]', re.ASCII)
NAME = re.compile(r"[A-Za-z_]\w*", re.ASCII)
BLANK = re.compile(r"[ \t]*(#.*)?")
END = re.compile(r"[ \t]*end[ \t]*(#.*)?")

# first and last are places in the list of lines; is_block says that lines stand between them
Command = namedtuple("Command", "first last words is_block")
# condition is its tokens, and names are all names in the condition and the bodies
Rule = namedtuple("Rule", "number symbol parameters condition names")


def lines_of(data):
    """The lines of a script, each byte a character, without what ends them."""
    lines = data.decode("latin-1").split("\n")
    return [line[:-1] if line.endswith("\r") else line for line in lines[:-1]] + [line for line in lines[-1:] if line]


def tokens(line):
    """The tokens of a line, each with the column at which it begins, from 1."""
    found = []
    for token in TOKEN.finditer(line):
        if token.group() == "#":
            break
        found.append((token.start() + 1, token.group()))
    return found


def words_of(line):
    return [word for _, word in tokens(line)]


def is_blank(line):
    return len(line) <= LONGEST and BLANK.fullmatch(line) is not None


def opens_block(words, is_second):
    """Whether the lines behind a line of these words, up to one `end`, are its block."""
    if is_second and len(words) == 2 and words[0] == "asset":
        return re.fullmatch(r"[A-Za-z_]\w{0,31}", words[1], re.ASCII) is not None and words[1] not in RESERVED
    return words == ["rules"] or is_second and words in (["city"], ["judge"])


def is_version(words):
    return len(words) == 2 and words[0] == "version" and re.fullmatch(r"0*2(\.0+)?", words[1]) is not None


def commands(lines, words_of=words_of):
    """The commands of a script; whoever asks often may bring words that are kept."""
    found, is_second, at = [], None, 0
    while at < len(lines):
        first, line = at, lines[at]
        at += 1
        if is_blank(line):
            continue
        words = words_of(line) if len(line) <= LONGEST else []
        if is_second is None:
            is_second = is_version(words)
        is_block = opens_block(words, is_second)
        if is_block:
            while at < len(lines) and not (len(lines[at]) <= LONGEST and END.fullmatch(lines[at])):
                at += 1
            at += 1
        found.append(Command(first, at - 1, words, is_block))
    return found


def is_open(command, lines):
    """Whether it is a block that the script's end leaves open."""
    return command.is_block and command.last >= len(lines)


def without(lines, *heads):
    """The same lines but `stats` for each command that is one of these words alone.

    Without `quiet` each command has its reply; without `print` replies are short, and `print` alone is never refused.
    """
    other = list(lines)
    for command in commands(lines):
        if len(command.words) == 1 and command.words[0] in heads:
            other[command.first] = "stats"
    return other


def without_block(lines):
    """The place of the first of a script's lines that stands in no block and should, where the script has no block at all."""
    found = [command for command in commands(lines) if not is_version(command.words)]
    if not found or any(command.is_block for command in found):
        return None
    line = lines[found[0].first]
    is_rule = re.match(r"\s*(\d+\s*:\s*)?[A-Za-z_]\w*\s*(\([^()]*\))?\s*(:.*)?-+>", line, re.ASCII)
    is_head = found[0].words[:1] in (["PRIORITY"], ["attr"]) and any(rule_in(lines[command.first]) for command in found)
    return found[0].first if is_rule or is_head else None


def text_of(lines):
    """The bytes that are read as these lines: one carriage return before a line feed is taken away."""
    return "".join(line + ("\r\n" if line.endswith("\r") else "\n") for line in lines).encode("latin-1")


def rule_in(line):
    """The rule in a line of a block or behind `put P`, else None."""
    words = words_of(line)
    words = words[2:] if words[:1] == ["put"] else words
    if len(words) < 3 or words[1] != ":" or not re.fullmatch(r"\d+(\.0+)?", words[0]):
        return None
    rest, parameters = words[3:], []
    if rest[:1] == ["("] and ")" in rest:
        close = rest.index(")")
        parameters, rest = rest[1:close:2], rest[close + 1 :]
    condition = rest[1 : rest.index("->")] if rest[:1] == [":"] and "->" in rest else []
    names = {
        word
        for before, word in zip(["", *rest], rest)
        if before != "." and NAME.fullmatch(word) and word not in RESERVED
    }
    return Rule(int(words[0].split(".")[0]), words[2], parameters, condition, names)


def rule_of(line):
    """The id and the symbol of the rule in a line of a block or behind `put P`, else None."""
    rule = rule_in(line)
    return rule and (rule.number, rule.symbol)
