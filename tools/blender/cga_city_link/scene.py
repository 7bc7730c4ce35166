"""The scene follows a link: what it tells is shown, and where a slider was moved the link is asked for that value."""
import bpy

from cga_city_lib.setting import far

from . import meshes

OFFSET = "cga_offset"


class Follower:
    def __init__(self, link):
        self.link, self.known, self.said = link, {}, "waits for the program"

    def tick(self):
        """Takes in what was told, and hands on what was moved; whether anything was shown."""
        self.ask()
        is_shown = False
        while not self.link.updates.empty():
            self.show(self.link.updates.get())
            is_shown = True
        return is_shown

    def show(self, update):
        if update.lots:
            meshes.show(update.lots, self.offset(update.lots))
        if update.attributes is not None:
            self.put_sliders(update.attributes)
        counts = (
            f"{update.stats.lots} lots, {update.stats.instances:,} solids, {update.stats.expanded:,} shapes expanded; "
            if update.stats
            else ""
        )
        self.said = "\n".join([f"{counts}{update.seconds:.2f} s", *update.said])

    def offset(self, lots):
        """What is taken off all coordinates: it is settled with the first town, so that later ones stay where they are."""
        scene = bpy.context.scene
        if OFFSET not in scene:
            points = [point for solids in lots.values() for _, corners, _ in solids for point in corners]
            scene[OFFSET] = (
                [float(far(min(parts), max(parts))) for parts in zip(*points)] if points else [0.0, 0.0, 0.0]
            )
        return tuple(scene[OFFSET])

    def put_sliders(self, attributes):
        """A property of the collection for each attribute, from 0 to double its value."""
        holder = meshes.collection()
        for name in set(self.known) - set(attributes):
            del holder[name]
        for name, value in attributes.items():
            number = float(value)
            if name not in self.known or name not in holder:
                holder[name] = number
                ends = sorted((0.0, 2 * number)) if number else (-1.0, 1.0)
                holder.id_properties_ui(name).update(
                    soft_min=ends[0], soft_max=ends[1], precision=3, description="an attribute of the script"
                )
            elif holder[name] == self.known[name]:
                holder[name] = number  # else it was moved since, which is asked for at the next tick
            self.known[name] = number

    def ask(self):
        holder = meshes.collection()
        for name, value in self.known.items():
            moved = holder.get(name, value)
            if moved != value:
                self.link.set(name, moved)
                self.known[name] = moved
