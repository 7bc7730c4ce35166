"""Files that are made of a script's town by the other tools, again at each save."""
import io
import shlex
import sys
import time
from pathlib import Path
from typing import Any, Callable, Dict, List, Mapping, NamedTuple, Optional, Sequence, Tuple

from .call import WrongWord
from .door import KEPT, Opened
from .files import write
from .given import Given
from .given_files import Target
from .guarded import INTERRUPTED
from .instances import PLACES
from .kept_instances import KeptInstances
from .program import LAUNCHER
from .script import commands, lines_of
from .standing import standing
from .strangers_text import told

TOOLS = LAUNCHER.parent / "tools"
# the tool that makes a file by its ending, and whether it prints what stands in the file
MAKERS = {
    ".merged.obj": (TOOLS / "merge", False),
    ".glb": (TOOLS / "glb", False),
    ".usda": (TOOLS / "usda", False),
    ".png": (TOOLS / "picture", False),
    ".html": (TOOLS / "view", False),
    ".json": (TOOLS / "places", False),
    ".csv": (TOOLS / "table", True),
    ".svg": (TOOLS / "plan", True),
}


class Output(NamedTuple):
    """A file, and what its tool is called with."""

    path: str
    tool: Path
    more: List[str]
    is_printed: bool

    def words(self, script: str) -> List[str]:
        return [script, *([] if self.is_printed else [self.path]), *self.more]


def output_of(word: str) -> Output:
    """A file with perhaps words for its tool behind it, as `plan.svg --plan 1.2`."""
    try:
        path, *more = shlex.split(word)
    except ValueError:
        raise WrongWord(f"`{told(word)}` isn't a file and words for its tool") from None
    for ending, (tool, is_printed) in MAKERS.items():
        if path.lower().endswith(ending):
            return Output(path, tool, more, is_printed)
    raise WrongWord(f"{told(path)} has to end in {', '.join(list(MAKERS)[:-1])} or {list(MAKERS)[-1]}")


def files_of(words: Any) -> Tuple[List[str], List[Target]]:
    """The files that are made; each has an ending of its tool."""
    return [], [(output_of(word).path, ()) for word in words.outputs]


def check_words(output: Output, script: str, more: Sequence[str] = ()) -> None:
    """Refuses words that its tool doesn't take, before anything is begun."""
    code = compile(output.tool.read_bytes(), str(output.tool), "exec")
    tool: Dict[str, Any] = {"__name__": "tool", "__file__": str(output.tool)}
    exec(code, tool)
    tool["words"]().parse_args([*output.words(script), *more])


def made(output: Output, script: str, more: Sequence[str] = ()) -> bool:
    """Calls the tool in this process; whether it made the file."""
    kept, out = (sys.argv, sys.stdout), io.TextIOWrapper(io.BytesIO(), encoding="utf-8")
    sys.argv, sys.stdout = [str(output.tool), *output.words(script), *more], out
    status: Any = 0
    try:
        code = compile(output.tool.read_bytes(), str(output.tool), "exec")
        exec(code, {"__name__": "__main__", "__file__": str(output.tool)})
    except SystemExit as end:
        status = end.code
    finally:
        sys.argv, sys.stdout = kept
    if status == INTERRUPTED:
        raise KeyboardInterrupt
    out.flush()
    if status == 0 and output.is_printed:
        write(Path(output.path), out.buffer.getvalue())
    return status == 0


class Outputs:
    """Takes what changed at a save, as a page would, and makes the files again."""

    def __init__(
        self, path: str, outputs: Sequence[Output], say: Callable[[str], None], words: Sequence[str] = ()
    ) -> None:
        self.path, self.outputs, self.say, self.drawn = path, outputs, say, KeptInstances()
        self.words = words  # that each tool is called with, as --set and --program
        self.source, self.said, self.is_first = b"", "", True
        self.dress: Optional[Mapping[str, str]] = None  # the mesh of each symbol that has one of one's own

    def value(self, name: str, otherwise: Any) -> Any:
        return otherwise

    def put(self, changes: Mapping[bytes, int] = {}, **head: Any) -> None:
        is_changed = self.drawn.take(changes)
        said = head.get("said")
        if said and said != self.said:
            self.say(said)
        self.said = said if said is not None else self.said
        if "save" in head and not head["is_stale"]:
            is_changed, self.dress = is_changed or head.get("dress") != self.dress, head.get("dress")
            self.make(is_changed or self.is_first)

    def is_dressed(self) -> bool:
        return any(command.words[:1] == ["dress"] for command in commands(lines_of(self.source)))

    def make(self, is_wanted: bool) -> None:
        if not is_wanted:
            self.say(f"{self.path}: nothing that is drawn changed, and the files stay as they are")
            return
        begun = time.monotonic()
        if not self.is_dressed():
            KEPT[self.path] = self.opened()
        done = [output.path for output in self.outputs if made(output, self.path, self.words)]
        KEPT.clear()
        self.is_first = self.is_first and len(done) < len(self.outputs)
        if done:
            self.say(
                f"{self.path}: {', '.join(done)} {'is' if len(done) == 1 else 'are'} made, {time.monotonic() - begun:.1f} s"
            )

    def opened(self) -> Opened:
        """The town with its lots in the script's order."""
        lines = lines_of(self.source)
        names = standing(lines, [(command, ["# ok"]) for command in commands(lines)]).lots
        return Opened(Given(self.path, self.source, True), self.drawn.in_order(names), PLACES)


def settings_behind(data: Optional[bytes], settings: Sequence[str]) -> Optional[bytes]:
    """A script with lines that set attributes behind it; nothing where there is none."""
    if not data or not settings:
        return data
    return data + b"\n" + "".join(f"attr {setting}\n" for setting in settings).encode()


__all__ = ["Output", "Outputs", "check_words", "files_of", "output_of", "settings_behind"]
