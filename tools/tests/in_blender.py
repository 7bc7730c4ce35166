#!/usr/bin/env python3
"""The add-on, the placing of meshes and glTF files inside Blender, where that is installed; the gate runs it, and the quick tests
don't.

usage: tools/tests/in_blender.py
"""
import os
import shutil
import subprocess
import sys
import tempfile
from pathlib import Path

import own_window
from in_process import called
from test_other_readers import TILE

from cga_city_lib.tile_glb import glb

TESTS = Path(__file__).resolve().parent
TOOLS = TESTS.parent
TOLD = ["the places are taken", "the add-on follows", "the glTF file is taken", "the tile is taken"]
TOWN = own_window.town((0, 0, 0))
MESH = """mtllib window.mtl
o pane
usemtl pane
v 0 0 0
v 2 0 0
v 0 4 0
f 1 2 3
o frame
usemtl frame
v 0 0 1
v 2 0 1
v 0 4 1
f 4 5 6
"""


def blender(*words):
    """Whether a run of Blender told all that the steps tell; else what it said is shown."""
    path = shutil.which("blender")
    words = [path, "--background", "--factory-startup", "--python-exit-code", "1", *words]
    # Blender's Python has the modules of the first python3 on the PATH: they have to be those of its own folder
    env = {**os.environ, "PATH": f"{os.path.dirname(path)}:{os.environ['PATH']}"}
    done = subprocess.run(words, stdout=subprocess.PIPE, stderr=subprocess.STDOUT, text=True, env=env)
    is_well = done.returncode == 0 and all(told in done.stdout for told in TOLD)
    skipped = [line for line in done.stdout.split("\n") if line.startswith("SKIPPED")]
    print("\n".join(["; ".join(TOLD), *skipped]) if is_well else done.stdout)
    return is_well


def steps(folder):
    """The places first, and then, in a scene of its own, what the add-on does: one start is enough for both."""
    for name, text in (("town.obj", TOWN), ("window.obj", MESH), ("window.mtl", "newmtl pane\nnewmtl frame\n")):
        (folder / name).write_text(text, encoding="utf-8")
    for tool, target in (("merge", "town.merged.obj"), ("places", "town.csv")):
        status, _, said = called(tool, folder / "town.obj", folder / target)
        if status:
            sys.exit(said)
    (folder / "own").mkdir()
    own_window.put(folder / "own")
    words = (folder / "own/town.obj", folder / "town.glb", "--mesh", f"window={folder / 'own/window.obj'}")
    status, _, said = called("glb", *words)
    if status:
        sys.exit(said)
    (folder / "tile.glb").write_bytes(glb(TILE.encode(), (2, 0, 7), {"a": ("A", {"zone": "W2"})}))
    status, _, said = called("usda", *words[:1], folder / "town.usda", *words[2:])
    if status:
        sys.exit(said)
    scripts = [TOOLS / "blender/place.py", *(TESTS / f"blender_{name}.py" for name in ("places", "steps", "glb"))]
    return blender(
        *(word for script in scripts for word in ("--python", script)),
        "--",
        folder / "town.merged.obj",
        folder / "town.csv",
        folder / "town.blend",
        f"window={folder / 'window.obj'}",
    )


def main():
    if shutil.which("blender") is None:
        print("SKIPPED: nothing was tried in Blender, since blender isn't on the PATH")
        return 0
    with tempfile.TemporaryDirectory() as folder:
        return 0 if steps(Path(folder)) else 1


sys.exit(main())
