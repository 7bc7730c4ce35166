"""A region as 3D Tiles: a file of glTF for each job, and tileset.json, with coarser heads as levels of detail."""
import json
import struct

from .apart import around
from .call import Refused
from .exact import parted
from .files import write
from .joining import workers
from .map_facts import kept_facts, read_facts
from .plan import tile_name
from .printed import reading
from .progress import counted
from .quadtree import Quadtree
from .tile_glb import ends_of, glb
from .tileset import Frame, Tile, tileset, tree
from .towns import first_objects

SMALLEST = 10**6  # boxes are rounded outwards to so many parts of a unit


def corners(box, one):
    """The least and the greatest corner of a box, X before Z before Y over one, as floats that lie no nearer."""
    low = tuple((box[at] * SMALLEST // one) / SMALLEST for at in (0, 4, 2))
    high = tuple(-(-box[at] * SMALLEST // one) / SMALLEST for at in (1, 5, 3))
    return low, high


def write_glb(given):
    """Makes a tile by the output of its job and by its own name. (A plan would go to a process as a whole.)"""
    folder, name = given
    path = folder / "tiles" / f"{name}.glb"
    if not path.exists():
        job, own, x, z, *facts = name.split("_")
        source = folder / "jobs" / f"{job}.out"
        known = read_facts(folder, facts[0]) if facts else {}
        with reading(source):
            write(path, glb(first_objects(source, int(own)), (int(x), 0, int(z)), known))


def write_some(folder, names):
    """What a job does that makes tiles of this name."""
    (folder / "tiles").mkdir(exist_ok=True)
    for name in names:
        try:
            write_glb((folder, name))
        except (ValueError, FileNotFoundError):
            raise Refused(
                f"{name} is no tile of {folder}, or its job wasn't run: todo --tiles names those to make"
            ) from None


def drawn_box(folder, job):
    """The box of what a tile draws, or of the corner of its square where it draws nothing."""
    x, z = job.corner
    path = folder / "tiles" / f"{tile_name(job)}.glb"
    try:
        low, high = ends_of(path.read_bytes()) or ((0, 0, 0), (0, 0, 0))
    except (ValueError, TypeError, AttributeError, LookupError, struct.error):
        raise Refused(f"{path} isn't a tile of this tool: take it away, and make the tiles again") from None
    return tuple(tuple(number + corner for number, corner in zip(end, (x, 0, z))) for end in (low, high))


def tile_of(folder, plan, job, told):
    boxes = told.boxes[: job.own]
    box = corners(around(boxes), told.one) if boxes else drawn_box(folder, job)
    units, one = parted(plan.options.errors[job.level - 1]) if job.level else (0, 1)
    x, z = job.corner
    return Tile(job.square, box, units / one, f"{tile_name(job)}.glb", Frame((x, 0, z), job.angle))


def grouped(squares):
    """Squares in larger ones, about four in each."""
    most = 4
    while True:
        leaves = list(Quadtree([square[:2] for square in squares], [1] * len(squares), most).leaves())
        if len(leaves) < len(squares):
            return [
                (max([leaf.square, *(squares[at] for at in leaf.items)], key=lambda one: one[2]), leaf.items)
                for leaf in leaves
            ]
        most *= 2


def levels(folder, plan, told):
    """The tiles of the coarsest level, each with those that it stands for below it."""
    tiles = []
    for level in range(len(plan.heads)):
        jobs = [job for job in plan.jobs if job.level == level]
        below, tiles = tiles, [tile_of(folder, plan, job, told[job.name]) for job in jobs]
        for tile, job in zip(tiles, jobs):
            for number in job.parts:
                tile.take(below[number])
    return tiles


def on_ground(folder, plan, town):
    """The town's tile with that of the map's ground beside it, where there is one."""
    if not plan.ground:
        return town
    from .leaf_tiles import ground_leaf  # it takes long to load, and most regions have no map

    tile, data = ground_leaf(f"ground_{plan.ground}.glb", kept_facts(folder).ground)
    write(folder / "tiles" / tile.uri, data)
    top = Tile((0, 0, 0), None)
    for child in (tile, town):
        top.take(child)
    top.error = max(top.error, top.diagonal())
    return top


def write_tiles(folder, plan, told, number):
    """Makes the tiles that aren't there, and the tree over all; gives its path."""
    (folder / "tiles").mkdir(exist_ok=True)
    given = [(folder, name) for name in plan.tiles()]
    with workers(number) as pool:
        for _ in counted(pool(write_glb, given), "tiles made", len(given)):
            pass
    path = folder / "tiles" / "tileset.json"
    root = on_ground(folder, plan, tree(levels(folder, plan, told), grouped))
    write(path, json.dumps(tileset(root, plan.digest()), separators=(",", ":")).encode())
    return path
