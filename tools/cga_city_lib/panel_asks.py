"""What a page's panel asks of its preview: that a view, a variant or values be written into the script, what variants come to,
how a solid came, and that the editor be opened there."""
import os
from pathlib import Path
from typing import Any, Dict, List

from . import editor, files, kept_views, panel_words, variants
from .call import Refused
from .script import lines_of, text_of
from .variant_bills import VariantBills

NAME = "a name has letters, digits and underscores alone, and 32 of them at most"


class PanelAsks:
    """What can't be done is refused. `editor` is the words of a command, or none."""

    def __init__(self, watch: Any, shown: Any, program: str, command: List[str]) -> None:
        self.watch, self.shown, self.program, self.command = watch, shown, program, command
        self.bills, self.lots = VariantBills(program, self.tell_bills), None  # type: Any, Any

    def rewrite(self, change: Any) -> None:
        """Changes the lines of the script's file."""
        path = self.watch.path
        try:
            with open(path, "rb") as file:
                lines = lines_of(file.read())
            files.write(Path(os.path.realpath(path)), text_of(change(lines)))
        except OSError as fault:
            raise Refused(f"{path}: {fault.strerror}") from None

    def keep(self, words: Dict[str, str]) -> None:
        """Writes a camera or a variant into the script."""
        told = words.get("words", "")
        if "variant" in words:
            name = words["variant"]
            fits, change = variants.line_of(name, told), variants.with_variant
        else:
            name = words.get("camera", "")
            fits, change = kept_views.CAMERA.fullmatch(f"# camera {name} {told}"), kept_views.with_camera
        if not fits:
            raise Refused(f"{name}: {NAME}")
        self.rewrite(lambda lines: change(lines, name, told))

    def write(self, values: Dict[str, str]) -> None:
        """Writes values of attributes into the script."""
        self.rewrite(lambda lines: panel_words.with_values(lines, values))

    def compare(self, _: Dict[str, str]) -> None:
        """Begins to work what the variants come to, which the pages are told one by one."""
        self.bills.begin(self.watch.lines)

    def tell_bills(self, lines: List[str], found: Dict[str, Any]) -> None:
        if lines is self.watch.lines:
            self.shown.put(bills=found)

    def explain(self, words: Dict[str, str]) -> Dict[str, Any]:
        """How the solid of a lot came that stands there, with the values that the sliders have."""
        from . import lot_told  # the definition takes long to load, and most previews are never asked

        place = lot_told.place_of(words.get("place", ""))
        if not place:
            raise Refused("a place is six numbers: the corner of a scope and its sizes")
        self.lots = self.lots or lot_told.LotTold(self.program)
        turned = [f"attr {name} = {value}" for name, value in self.watch.values.items()]
        return self.lots.told([*self.watch.lines, *turned], words.get("lot", ""), words.get("symbol", ""), list(place))

    def open(self, words: Dict[str, str]) -> None:
        """Opens the editor at a line of the script."""
        line = words.get("line", "")
        if not self.command or not line.isdigit():
            raise Refused("no editor is said: tools/preview --editor 'code -g {file}:{line}'")
        wrong = editor.opened(self.command, self.watch.path, int(line))
        if wrong:
            raise Refused(wrong)
