"""What docs/GUIDED_HOUR.md says in numbers of the statement: lines and minutes of its steps."""
import re

# a step of some sections, with its lines and minutes
STEP = re.compile(r"^(\| \d\. [^|]+ \| ([\d, ]+) \| )\d+ \| \d+ \|$", re.MULTILINE)
OTHER = re.compile(r"^\| \d\. [^|]+ \| - \| - \| (\d+) \|$", re.MULTILINE)
# lines that are read in a minute
PACE = 10


def lines_of(blocks):
    """How many lines of some blocks are neither empty nor a comment."""
    lines = [line.strip() for _, _, block in blocks for line in block]
    return sum(bool(line) and not line.startswith(("--", "//")) for line in lines)


def minutes(lines):
    return -(-lines // PACE)


def numbered(text, lines):
    """The page with the numbers of these lines, a section each, in the place of its own."""

    def step(match):
        number = sum(lines[int(section) - 1] for section in match[2].split(","))
        return f"{match[1]}{number} | {minutes(number)} |"

    text = STEP.sub(step, text)
    read = sum(minutes(sum(lines[int(at) - 1] for at in match[2].split(","))) for match in STEP.finditer(text))
    others = sum(int(match[1]) for match in OTHER.finditer(text))
    text = re.sub(r"\d+ lines without comments", f"{sum(lines)} lines without comments", text)
    return re.sub(r"All steps take \d+ minutes", f"All steps take {read + others} minutes", text)
