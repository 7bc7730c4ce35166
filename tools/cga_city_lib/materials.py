"""Materials of a glTF file: one for each symbol, by its colour and its texture."""
from pathlib import Path
from typing import TYPE_CHECKING, Any, Dict, Optional

from .call import Refused
from .colours import look_of
from .glb import TRANSFORM, Glb

if TYPE_CHECKING:
    from .own_mesh import Surface

KINDS = {b"\x89PNG": "image/png", b"\xff\xd8\xff": "image/jpeg"}
REPEAT = 10497


class Materials:
    """The material of each symbol, which is made where it is asked for first; a picture comes into the file once."""

    def __init__(self, glb: Glb):
        self.glb, self.numbers, self.textures = glb, {}, {}
        self.repeated: Optional[int] = None  # the sampler of textures that run on
        self.owns: Dict[int, Any] = {}  # surfaces with their numbers, by their identities

    def of(self, symbol: str) -> int:
        if symbol not in self.numbers:
            self.numbers[symbol] = self.glb.add("materials", self.material(symbol))
        return self.numbers[symbol]

    def material(self, symbol: str) -> Dict[str, Any]:
        look = look_of(symbol)
        shown = {
            "baseColorFactor": [*(linear(part / 255) for part in look.colour), 1],
            "metallicFactor": 0,
            "roughnessFactor": 0.9,
        }
        if look.texture is not None:
            self.glb.used.add(TRANSFORM)
            scale = [1 / part for part in look.size]
            shown["baseColorTexture"] = {
                "index": self.texture(look.texture),
                "extensions": {TRANSFORM: {"scale": scale}},
            }
        return {"name": symbol, "doubleSided": True, "pbrMetallicRoughness": shown}

    def own(self, surface: "Surface", symbol: str) -> int:
        """The material of a mesh of one's own; one that has no colour is that of its symbol."""
        shown = surface.shown()
        if shown is None:
            return self.of(symbol)
        if id(surface) not in self.owns:
            told = (
                self.carried(surface.told, surface.pictures) if surface.told is not None else self.plain(surface, shown)
            )
            self.glb.used |= set(told.get("extensions", {}))
            self.owns[id(surface)] = surface, self.glb.add("materials", told)
        return int(self.owns[id(surface)][1])

    def plain(self, surface: "Surface", shown: Any) -> Dict[str, Any]:
        light = surface.colour or [linear(part / 255) for part in shown]
        rough: Dict[str, Any] = {
            "baseColorFactor": [*light, surface.opacity],
            "metallicFactor": surface.metallic,
            "roughnessFactor": surface.roughness,
        }
        if surface.picture is not None:
            rough["baseColorTexture"] = {"index": self.texture(surface.picture)}
        blend = {"alphaMode": "BLEND"} if surface.opacity < 1 else {}
        return {"name": surface.name, "doubleSided": surface.is_double, "pbrMetallicRoughness": rough, **blend}

    def carried(self, told: Any, pictures: Any) -> Any:
        """What another file says of a material, with its pictures; a texture whose places aren't taken is left out."""
        if isinstance(told, list):
            return [self.carried(entry, pictures) for entry in told]
        if not isinstance(told, dict):
            return told
        found = {}
        for name, entry in told.items():
            if not (name.endswith("Texture") and isinstance(entry, dict) and "index" in entry):
                found[name] = self.carried(entry, pictures)
            elif entry.get("texCoord", 0) == 0:
                self.glb.used |= set(entry.get("extensions", {}))
                found[name] = {**entry, "index": self.picture(pictures, entry["index"])}
        return found

    def picture(self, pictures: Any, number: int) -> int:
        key = id(pictures.file), number
        if key not in self.textures:
            data, kind, sampler = pictures.of(number)
            image = self.glb.add("images", {"bufferView": self.glb.view(data), "mimeType": kind})
            texture = {"source": image, "sampler": self.glb.add("samplers", sampler)}
            self.textures[key] = self.glb.add("textures", texture)
        return int(self.textures[key])

    def texture(self, path: Path) -> int:
        if path not in self.textures:
            data = path.read_bytes()
            kind = next((kind for mark, kind in KINDS.items() if data.startswith(mark)), None)
            if kind is None:
                raise Refused(f"{path}: a texture in a glTF file has to be a PNG or a JPEG")
            image = self.glb.add("images", {"name": path.stem, "bufferView": self.glb.view(data), "mimeType": kind})
            if self.repeated is None:
                self.repeated = self.glb.add("samplers", {"wrapS": REPEAT, "wrapT": REPEAT})
            sampler = self.repeated
            self.textures[path] = self.glb.add("textures", {"source": image, "sampler": sampler})
        return self.textures[path]


def linear(part: float) -> float:
    """A part of a colour as light, by sRGB's curve."""
    return part / 12.92 if part <= 0.04045 else ((part + 0.055) / 1.055) ** 2.4
