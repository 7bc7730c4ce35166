"""The planted bugs. Those of crates/NAME/must-fail are tried by `rt ci`, each over a proof of the whole crate. Those of
crates/NAME/planted have a line `fn: PATH`, the function below the crate that has to refuse them, and are tried by it alone."""
import re
from pathlib import Path
from typing import Dict, List, NamedTuple, Optional, Set, Tuple

TOP = Path(__file__).resolve().parent.parent
WHOLE, BY_FUNCTION = "must-fail", "planted"
# a function with its attributes, of which one may name the cycle of calls that it is in
IN_CYCLE = re.compile(r"#\[cycle\((\w+)\)\]\n(?:\s*(?:#\[.*\]|//.*)\n)*\s*(?:pub(?:\([a-z]+\))? )?fn (\w+)")


class Bug(NamedTuple):
    """An edit of a crate, and the function that has to refuse it; empty where the whole crate is proved with it."""

    crate: Path
    edit: Path
    function: str

    @property
    def name(self) -> str:
        return f"{self.crate.name}/{self.edit.stem}"


def function_in(edit: Path) -> str:
    heads = [line[4:].strip() for line in edit.read_text(encoding="utf-8").splitlines() if line.startswith("fn: ")]
    return heads[0] if len(heads) == 1 else ""


def cycle_of(bug: Bug, texts: Dict[str, str]) -> Set[str]:
    """The functions that are proved as one with the bug's function: those of its cycle of calls, itself included."""
    before, _, name = bug.function.rpartition("::")
    cycles = {function: cycle for text in texts.values() for cycle, function in IN_CYCLE.findall(text)}
    together = [other for other in cycles if cycles[other] == cycles.get(name)]
    return {bug.function, *(f"{before}::{other}" for other in together)}


def bugs_of(crate: Path, folder: str) -> List[Bug]:
    return [Bug(crate, edit, function_in(edit)) for edit in sorted(crate.glob(f"{folder}/*"))]


def crates() -> List[Path]:
    return sorted(crate for crate in TOP.glob("crates/*") if (crate / "src").is_dir())


def applied(edit: Path, crate: Path) -> Tuple[Optional[Dict[str, str]], str]:
    """The texts of the files that an edit changes, by their paths in the crate; or none, and why it can't be applied."""
    file, old, texts = None, None, {}
    for line in edit.read_text(encoding="utf-8").splitlines():
        if line.startswith("file: "):
            file = line[6:].strip()
        elif line.startswith("old: "):
            old = line[5:]
        elif line.startswith("new:"):
            new = line[4:].removeprefix(" ")
            why = unfit(crate, file, old, new, texts)
            if why:
                return None, why
            texts[file] = texts[file].replace(old, new)
            old = None
    return (texts, "") if texts else (None, "it has no 'old:' and 'new:'")


def unfit(crate: Path, file: Optional[str], old: Optional[str], new: str, texts: Dict[str, str]) -> str:
    """Why one line can't be changed; nothing where it can, and then the file's text is among the texts."""
    if file is None or old is None:
        return "a line 'new:' has no 'old:' before it"
    if not (crate / file).is_file():
        return f"there is no {file}"
    text = texts.setdefault(file, (crate / file).read_text(encoding="utf-8"))
    if text.count(old) != 1:
        return f"its old text stands {text.count(old)} times in {file}"
    return "it changes nothing" if old == new else ""
