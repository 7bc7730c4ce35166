"""What a run printed, cut into one reply for each command."""
import re
from itertools import islice


def until_end(lines):
    for line in lines:
        yield line
        if line == "end":
            return


def replies(lines):
    """Each reply as its lines; where more may come, an OBJ text is handed out at the line behind it."""
    lines = iter(lines)
    line = next(lines, None)
    while line is not None:
        reply, following = [line], None
        if line.startswith("# cga_city obj"):
            for following in lines:
                if following[:2] not in ("o ", "g ", "v ", "f "):
                    break
                reply.append(following)
                following = None
        elif line in ("rules", "version 2"):
            reply += until_end(lines)
        elif counted := re.fullmatch(r"# (?:faults|bill|trace) (\d+)", line):
            reply += taken(lines, int(counted.group(1)))
        yield reply
        line = next(lines, None) if following is None else following


def without_changes(lines):
    """The lines of replies alone, where a program tells changes as well."""
    lines = iter(lines)
    for line in lines:
        if line.startswith("# changed "):
            for _ in islice(lines, sum(map(int, line.split()[2:4]))):
                pass
        else:
            yield line


def taken(lines, number):
    """So many lines; a reader that has a quicker way than one by one takes it."""
    return lines.many(number) if hasattr(lines, "many") else islice(lines, number)


def is_refused(reply):
    return reply[0].startswith("# refused ")


def counts_of(reply):
    """The counts in a reply to `stats`."""
    words = reply[0].split()[2:]
    return {name: int(number) for name, number in zip(words[::2], words[1::2])}


def lines_with(heads, text):
    """The lines of a text that begin with one of the heads. A text of OBJ is long, and few lines of it are replies."""
    if "\n# " in text or text.startswith("# "):
        yield from (line for line in text.split("\n") if line.startswith(heads))
