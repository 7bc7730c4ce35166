"""Objects in Blender: one for each lot, with a slot for each of its symbols, whose material is kept once it is there."""
import math
from array import array

import bpy

from cga_city_lib.colours import look_of
from cga_city_lib.eye import normal
from cga_city_lib.materials import linear
from cga_city_lib.uv import uvs

COLLECTION, LOT, SYMBOL, SLOTS, LOW = "cga_city", "cga_lot", "cga_symbol", "cga_slots", "cga_low"


def collection():
    found = bpy.data.collections.get(COLLECTION)
    if found is None:
        found = bpy.data.collections.new(COLLECTION)
        bpy.context.scene.collection.children.link(found)
    return found


def upright(point):
    """Blender's Z is up."""
    return point[0], -point[2], point[1]


def material_of(symbol):
    """The material of a symbol, by a mark of its own, so that it may be renamed and changed; made where it isn't there."""
    found = next((material for material in bpy.data.materials if material.get(SYMBOL) == symbol), None)
    return found or new_material(symbol)


def new_material(symbol):
    look = look_of(symbol)
    colour = [*(linear(part / 255) for part in look.colour), 1.0]
    made = bpy.data.materials.new(symbol or "none")
    made[SYMBOL], made.diffuse_color, made.use_nodes = symbol, colour, True
    shader = made.node_tree.nodes["Principled BSDF"]
    shader.inputs["Base Color"].default_value, shader.inputs["Roughness"].default_value = colour, 0.9
    if look.texture is not None:
        put_texture(made.node_tree, shader, look)
    return made


def put_texture(tree, shader, look):
    image, scale, place = (tree.nodes.new(f"ShaderNode{kind}") for kind in ("TexImage", "Mapping", "UVMap"))
    image.image = bpy.data.images.load(str(look.texture), check_existing=True)
    scale.inputs["Scale"].default_value = (1 / look.size[0], 1 / look.size[1], 1)
    tree.links.new(place.outputs["UV"], scale.inputs["Vector"])
    tree.links.new(scale.outputs["Vector"], image.inputs["Vector"])
    tree.links.new(image.outputs["Color"], shader.inputs["Base Color"])


def show(lots, offset):
    """Draws these lots again, each as solids of a symbol, corners and faces; a lot without solids goes."""
    into = collection()
    objects = {thing[LOT]: thing for thing in into.objects if LOT in thing}
    for lot, solids in lots.items():
        if solids:
            thing = objects.get(lot) or new_object(lot, solids, offset, into)
            fill(thing.data, solids, [a + b for a, b in zip(offset, thing[LOW])], offset)
        elif lot in objects:
            bpy.data.meshes.remove(objects[lot].data)  # and its object with it


def new_object(lot, solids, offset, into):
    """It stands at the lot's low corner, in whole units, and is left wherever it is moved from there."""
    points = [point for _, corners, _ in solids for point in corners]
    low = [float(math.floor(min(parts) - off)) for parts, off in zip(zip(*points), offset)]
    thing = bpy.data.objects.new(lot, bpy.data.meshes.new(lot))
    thing[LOT], thing[LOW], thing.location = lot, low, upright(low)
    into.objects.link(thing)
    return thing


def slots(mesh, solids):
    """The place of each symbol among the mesh's slots; what is in a slot is its user's."""
    known = list(mesh.get(SLOTS, []))
    for symbol in dict.fromkeys(symbol for symbol, _, _ in solids):
        if symbol not in known:
            known.append(symbol)
            mesh.materials.append(material_of(symbol))
    mesh[SLOTS] = known
    return {symbol: place for place, symbol in enumerate(known)}


def fill(mesh, solids, low, offset):
    """Puts the solids into the mesh in the place of what is there."""
    places, points, loops, starts, totals, kinds, maps = (
        slots(mesh, solids),
        array("f"),
        array("i"),
        array("i"),
        array("i"),
        array("i"),
        array("f"),
    )
    for symbol, corners, faces in solids:
        first = len(points) // 3
        for point in corners:
            points.extend(upright([a - b for a, b in zip(point, low)]))
        for face in faces:
            world = [[a - b for a, b in zip(corners[at], offset)] for at in face]
            starts.append(len(loops))
            totals.append(len(face))
            kinds.append(places[symbol])
            loops.extend(first + at for at in face)
            for uv in uvs(world, normal(*world[:3])):
                maps.extend(uv)
    mesh.clear_geometry()
    mesh.vertices.add(len(points) // 3)
    mesh.vertices.foreach_set("co", points)
    mesh.loops.add(len(loops))
    mesh.loops.foreach_set("vertex_index", loops)
    mesh.polygons.add(len(starts))
    for name, values in (("loop_start", starts), ("loop_total", totals), ("material_index", kinds)):
        mesh.polygons.foreach_set(name, values)
    mesh.uv_layers.new(name="UVMap").data.foreach_set("uv", maps)
    mesh.update(calc_edges=True)
    mesh.validate()
