"""Where the lots stand in what a job printed of its town, and the lines of a lot with its vertices numbered anew."""
import re
from collections import namedtuple

from .printed import OBJ, demand_digest, not_printed, reading

FACE = re.compile(rb"\nf ([\d ]+)")

# of a lot: where its lines begin and end in the file, and how many vertices they have
Place = namedtuple("Place", "begin end vertices")


def whole_output(path):
    """The bytes of an output, which are those that its job printed."""
    data = path.read_bytes()
    demand_digest(path, data)
    return data


def first_objects(path, number):
    """The lines of the first so many lots of the town."""
    data = whole_output(path)
    begin = end = data.index(OBJ) + len(OBJ)
    for _ in range(number):
        end = data.find(b"\no ", end) + 1 or data.index(b"\n# ", end - 1) + 1
    return data[begin:end]


def objects(path, names, text=0):
    """The places of these lots in one of the OBJ texts of a file, which has them in this order; others may follow."""
    data, begin, vertices = whole_output(path), 0, 0
    with reading(path):
        for _ in range(text + 1):
            begin = data.index(OBJ, begin) + len(OBJ)
    last = data.index(b"\n# ", begin - 1) + 1
    places = []
    for name in names:
        head = f"o {name}\n".encode("latin-1")
        if not data.startswith(head, begin):
            raise not_printed(path, f"the lot `{name}` isn't where it is to be")
        end = data.find(b"\no ", begin, last) + 1 or last
        places.append(Place(begin, end, data.count(b"\nv ", begin, end)))
        vertices += places[-1].vertices
        if largest(data, begin, end) > vertices:
            raise not_printed(path, f"a face of the lot `{name}` names a corner that isn't there")
        begin = end
    return places


def largest(data, begin, end):
    """The largest number of a vertex in the faces of the last solid, where numbers are largest; 0 where none is drawn."""
    faces = FACE.findall(data, max(begin, data.rfind(b"\ng ", begin, end)), end)
    return max(map(int, b" ".join(faces).split()), default=0)


def moved(lines, by):
    """The lines of a lot, its faces naming vertices that have so much greater numbers."""
    return lines if by == 0 else b"".join(moved_lines(lines, by))


def moved_lines(lines, by):
    faces = False
    for part in lines.split(b"\nf "):
        if faces:
            face, newline, rest = part.partition(b"\n")
            yield b"\nf " + b" ".join([b"%d" % (int(word) + by) for word in face.split()]) + newline + rest
        else:
            yield part
        faces = True
