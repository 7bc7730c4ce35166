"""What a script is replied to: the replies to its lines, one after the other."""
from .replies import at_end, effect
from .state import State

MOST_BYTES = 67108864


def cut(text):
    """The lines that a line feed ends, each without one carriage return before it, and what stands behind the last one."""
    *lines, rest = text.split("\n")
    return [without_cr(line) for line in lines], rest


def without_cr(line):
    return line[:-1] if line.endswith("\r") else line


def effects_of(decimals, text, is_whole=True):
    """The state and the reply after each line, and in the end the reply to the end. Where the text isn't all of the script,
    only the lines that a line feed ends are replied to."""
    lines, rest = cut(text)
    state = State(decimals=decimals)
    for line in lines + ([rest] if rest and is_whole else []):
        state, reply = effect(state, line)
        yield state, reply
    yield state, at_end(state) if is_whole else ""


def output_of(decimals, text):
    return "".join(reply for _, reply in effects_of(decimals, text))
