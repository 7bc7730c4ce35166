"""Tables of measurements, as they stand in the pages of docs."""
import re
import sys


def line_of(cells):
    """A row of Markdown."""
    return f"| {' | '.join(map(str, cells))} |\n"


def table(head, rows):
    """A table of Markdown, with a head and rows of cells."""
    lines = [line_of(cells) for cells in (head, *rows)]
    return lines[0] + "|" + "---|" * len(head) + "\n" + "".join(lines[1:])


def put(page, made):
    """Puts a table into the page, in the place of the one with the same head."""
    head = made.split("\n")[0] + "\n"
    with open(page, encoding="utf-8") as file:
        before, found, behind = file.read().partition(head)
    if not found:
        sys.exit(f"{page} has no table with the head {head}")
    with open(page, "w", encoding="utf-8") as file:
        file.write(before + made + re.sub(r"\A(\|.*\n)*", "", behind))


def tell(made, page):
    """Prints a table, and puts it into the page where one is said."""
    print(made, flush=True)
    if page:
        put(page, made)


def put_row(page, head, row, known):
    """Puts a row into the page's table with that head: in the place of the one whose first `known` cells are the same, else
    behind the rows whose first cell is the same, else at the end."""
    with open(page, encoding="utf-8") as file:
        before, found, behind = file.read().partition(table(head, []))
    if not found:
        sys.exit(f"{page} has no table with the head {found}")
    rows = re.match(r"(\|.*\n)*", behind).group(0).splitlines(True)
    cells, rest = [re.split(r" *\| *", line)[1:-1] for line in rows], behind[sum(map(len, rows)) :]
    same = [at for at, one in enumerate(cells) if one[:known] == row[:known]]
    near = [at for at, one in enumerate(cells) if one[:1] == row[:1]]
    at = same[0] if same else near[-1] + 1 if near else len(rows)
    rows[at : at + len(same[:1])] = [line_of(row)]
    with open(page, "w", encoding="utf-8") as file:
        file.write(before + found + "".join(rows) + rest)


def tell_row(head, row, known, page):
    """Prints a row as soon as it is measured, and puts it into the page where one is said."""
    print(line_of(row), end="", flush=True)
    if page:
        put_row(page, head, row, known)
