"""What tools/glb and tools/usda are given: a town with its setting, the symbols that are drawn by instances, meshes of one's own, and
where on Earth it is."""
import os
from typing import Any, Dict, List, Mapping, NamedTuple, Sequence, Set

from . import door, own_meshes, setting
from .call import Namespace, Words
from .colours import VARIABLE
from .dressed_town import opened_dressed
from .globe import place_told
from .ground_file import read_ground
from .ground_solids import lots_of
from .ids import ids_of
from .instances import Lots, symbols
from .own_meshes import Meshes


class EngineTown(NamedTuple):
    lots: Lots  # with the ground's in front, where it is drawn
    ids: Mapping[str, Sequence[str]]  # of each lot's solids, where some are instances
    setting: setting.Setting
    instances: Set[str]
    meshes: Meshes
    place: Dict[str, Any]

    def has_instances(self) -> bool:
        return bool(self.instances or self.meshes)

    def told(self, number: int) -> str:
        """What is said of a file of so many lots."""
        more = f", meshes of one's own for {', '.join(self.meshes)}" if self.meshes else ""
        return f"{number:,} lots, {setting.told(self.setting)}{more}"


def add_words(known: Words, target: str, *endings: str) -> None:
    known.add_argument("town", reads=True)
    known.add_argument("target", metavar=target, writes=endings)
    known.more_files = own_meshes.files_of
    known.add_argument("--instances", action="store_true")
    known.add_argument("--instance", action="append", default=[])
    known.add_argument("--ground", reads=True)
    known.add_argument("--colours", reads=True)
    own_meshes.add_words(known)
    setting.add_words(known)
    door.add_words(known)


def town_of(word: Namespace) -> EngineTown:
    if word.colours:
        os.environ[VARIABLE] = word.colours
    ground = read_ground(word.ground) if word.ground else None
    found, meshes = opened_dressed(word.town, word)
    known: List[str] = symbols(found.lots)
    own_meshes.check_drawn([(symbol, "") for symbol in word.instance], known)
    wanted = set(known if word.instances else word.instance)
    ids = ids_of(found)[0] if wanted or meshes else {}
    place = {"place": place_told(ground.place)} if ground else {}
    lots = {**(lots_of(ground) if ground else {}), **found.lots}
    return EngineTown(lots, ids, setting.setting_of(found.lots, word), wanted, meshes, place)
