"""What a program was proved and built of. `--prove` keeps beside the program the lines of crates.txt, and for each source
and for the program itself its sum; a call takes the program for proved where all of it is as kept. A file whose size and
times are as kept isn't read again."""
import os
import sys

PROGRAMS = ("cga_main", "cga_hulls", "cga_live")
ENDINGS = (".rt", ".antt")


def say(*words):
    if sys.stderr is not None:  # else it would stand among the replies
        print("cga_city:", *words, file=sys.stderr, flush=True)


def frugal():
    """The environment of a program that is to give large blocks back to the system once they are free. By default the C library
    keeps them from the second on, between small ones that came later."""
    return {"MALLOC_MMAP_THRESHOLD_": "131072", **os.environ}


def files_below(folder):
    """The entries of all sources in a folder; none where it isn't there."""
    try:
        with os.scandir(folder) as entries:
            for entry in entries:
                if entry.is_dir():
                    yield from files_below(entry.path)
                elif entry.name.endswith(ENDINGS):
                    yield entry
    except FileNotFoundError:
        return


def stamp_of(stat):
    return f"{stat.st_size} {stat.st_mtime_ns} {stat.st_ctime_ns}"


def sum_of(path):
    import hashlib  # it takes a third of a call to load, and most calls read no file

    with open(path, "rb") as file:
        return hashlib.sha256(file.read()).hexdigest()


class Program:
    """A program of the repository, as cga_main, with what is kept of its sources."""

    parts, made = ("src", "specs", "proofs"), "proved"

    def __init__(self, top, name):
        self.top, self.name = top, name
        self.folder = os.path.join(top, "crates", name)
        self.out = os.path.join(self.folder, "out")
        self.path = os.path.join(self.out, name)
        self.record = self.path + ".sources"

    def crates(self):
        """The crates that it stands on and itself, each behind those that it stands on, as they are built, with its line."""
        below, needed = {}, {}
        with open(os.path.join(self.top, "crates.txt"), encoding="utf-8") as file:
            for line in file:
                head, sign, rest = line.partition("#")[0].partition(":")
                if sign and head.split():
                    below[head.split()[0]] = rest.split()

        def visit(crate):
            for low in below[crate]:
                if low in below and low not in needed:
                    visit(low)
            needed[crate] = f"{crate}: {' '.join(below[crate])}"

        if self.name in below:
            visit(self.name)
        return needed

    def stamps(self, crates):
        """The stamp of each source by its path below the top."""
        from_top = len(self.top) + 1
        folders = [os.path.join(self.top, "crates", crate, part) for crate in crates for part in self.parts]
        return {entry.path[from_top:]: stamp_of(entry.stat()) for folder in folders for entry in files_below(folder)}

    def own(self):
        """The same of the program itself."""
        return {os.path.relpath(self.path, self.top): stamp_of(os.stat(self.path))}

    def kept(self):
        """What is kept: the lines of crates.txt, and each file's sum and stamp."""
        with open(self.record, encoding="utf-8", errors="surrogateescape") as file:
            lines, _, files = file.read().partition("\n\n")
        found = (line.split(" ", 4) for line in files.split("\n")[:-1])
        return lines.split("\n"), {
            path: (total, f"{size} {changed} {moved}") for total, size, changed, moved, path in found
        }

    def keep(self, lines, files):
        """Keeps it, in one step for whoever reads."""
        part = f"{self.record}.{os.getpid()}"
        with open(part, "w", encoding="utf-8", errors="surrogateescape") as file:
            file.write(
                "\n".join(lines)
                + "\n\n"
                + "".join(f"{total} {stamp} {path}\n" for path, (total, stamp) in files.items())
            )
        os.replace(part, self.record)

    def fault(self):
        """Why the program isn't taken for proved, in a few words; nothing where it is."""
        if not os.access(self.path, os.X_OK):
            return f"{self.name} isn't {self.made} yet"
        try:
            lines, files = self.kept()
        except (OSError, ValueError):
            return f"nothing says of which sources {self.name} was made"
        crates = self.crates()
        return self.fault_of_lines(lines, [*crates.values()]) or self.fault_of_files(
            lines, files, {**self.stamps(crates), **self.own()}
        )

    def fault_of_lines(self, lines, now):
        return "crates.txt has changed" if lines != now else ""

    def fault_of_files(self, lines, files, now):
        for path in now.keys() ^ files.keys():
            return f"{path} {'is new' if path in now else 'is gone'}"
        others = [path for path in now if now[path] != files[path][1]]
        for path in others:
            if sum_of(os.path.join(self.top, path)) != files[path][0]:
                return f"{path} has changed"
            files[path] = files[path][0], now[path]
        if others:
            try:
                self.keep(lines, files)
            except OSError:
                pass  # the next call reads these files again
        return ""

    def sums(self, stamps):
        return {path: (sum_of(os.path.join(self.top, path)), stamp) for path, stamp in stamps.items()}
