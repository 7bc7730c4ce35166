"""The definitions of specs/: where each stands in its file, and which of them a definition cites."""
import re
from pathlib import Path

TOP = Path(__file__).resolve().parent.parent
# a bare `pub` that is indented is a field's
HEAD = re.compile(r"(?:\s*(?:(?:abbrev|unfoldable) pub|pub (?:record|data))|pub) (\S+)(?=\s|$)")
USE = re.compile(r"^(?:pub )?use Rattle\.(cga_\w+)\.specs\.(\w+)(?:\.\{([^}]*)\}| as (\w+))", re.MULTILINE)
WORD = re.compile(r"[A-Za-z_][\w'-]*(?:\.[A-Za-z_][\w'-]*)*")


class Missing(Exception):
    """A definition isn't where the list says."""


def indent_of(line):
    return len(line) - len(line.lstrip(" "))


def head_of(lines, name):
    """The line at which a definition of this name begins: rather one with a word before its name than a bare one."""
    found = [
        (match.group(0).split()[0:2] == ["pub", name], at)
        for at, line in enumerate(lines)
        for match in [HEAD.match(line)]
        if match and match.group(1) == name
    ]
    if not found:
        raise Missing
    return min(found)[1]


def end_of(lines, at):
    """Behind the last line of the definition that begins here: deeper lines, its equations, and a bracket that closes."""
    indent, name = indent_of(lines[at]), HEAD.match(lines[at]).group(1)
    end = at + 1
    while end < len(lines):
        line = lines[end].strip()
        if line and indent_of(lines[end]) <= indent and not (line.startswith(name + " ") or line[0] in "})]"):
            break
        end += 1
    while not lines[end - 1].strip():
        end -= 1
    return end


def comment_above(lines, at):
    """The first line of the comment directly above; the line itself where there is none."""
    first = at
    while (
        first > 0
        and lines[first - 1].startswith(" " * indent_of(lines[at]) + "-- ")
        and "-- ----" not in lines[first - 1]
    ):
        first -= 1
    return first


def definition(lines, name):
    at = head_of(lines, name)
    taken = lines[comment_above(lines, at) : end_of(lines, at)]
    return [line[indent_of(lines[at]) :] for line in taken]


def is_text(line):
    """Neither blank nor a comment."""
    return line.strip() and not line.strip().startswith("--")


class Specs:
    """All files of specs/ by crate and name: their lines, the names that they define, and those that they import."""

    def __init__(self):
        self.lines, self.own, self.imported, self.aliases = {}, {}, {}, {}
        for path in TOP.glob("crates/*/specs/*.antt"):
            self.read((path.parent.parent.name, path.stem), path.read_text(encoding="utf-8"))

    def read(self, file, text):
        self.lines[file] = text.split("\n")
        self.own[file] = {match.group(1) for match in map(HEAD.match, self.lines[file]) if match}
        self.imported[file], self.aliases[file] = {}, {}
        for crate, module, names, alias in USE.findall(text):
            if alias:
                self.aliases[file][alias] = (crate, module)
            for name in filter(None, (name.strip() for name in names.split(","))):
                self.imported[file][name.split(" as ")[-1]] = ((crate, module), name.split(" as ")[0])

    def found(self, file, word):
        """The definition that a word stands for in a file; None where it is none of specs/."""
        first, _, second = word.partition(".")
        if first in self.aliases[file] and second:
            return self.followed(self.aliases[file][first], second.split(".")[0])
        return self.followed(file, first)

    def followed(self, file, name):
        """Through the imports of a file that gives a name again."""
        if file not in self.own:
            return None
        if name in self.imported[file]:
            return self.followed(*self.imported[file][name])
        return (file, name) if name in self.own[file] else None

    def text(self, file, name):
        """The lines of a definition without comments; none where the name is a field's or a case's."""
        try:
            at = head_of(self.lines[file], name)
        except Missing:
            return []
        return [line for line in self.lines[file][at : end_of(self.lines[file], at)] if is_text(line)]

    def reached(self, firsts):
        """The definitions that some definitions cite, and those that these cite, themselves included."""
        reached, open_ones = set(), list(firsts)
        while open_ones:
            file, name = open_ones.pop()
            if (file, name) in reached or not self.text(file, name):
                continue
            reached.add((file, name))
            words = WORD.findall("\n".join(line.partition(" -- ")[0] for line in self.text(file, name)))
            open_ones += filter(None, (self.found(file, word) for word in words))
        return reached
