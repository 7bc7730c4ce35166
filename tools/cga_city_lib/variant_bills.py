"""What the variants of a script come to, side by side: for each of them the bill by symbol and the floor area.

Each is worked by `tools/table` in a process of its own, one after the other, so that the preview goes on meanwhile.
"""
import csv
import subprocess
import sys
import tempfile
import threading
from pathlib import Path
from typing import Any, Callable, Dict, Iterator, List, Tuple

from .script import text_of
from .variants import floors, variants

TABLE = Path(__file__).resolve().parent.parent / "table"
SCRIPT = ""  # the name of the values that the script itself has

Told = Callable[[List[str], Dict[str, Any]], None]


def row(cells: Dict[str, str]) -> List[str]:
    return [cells[name] for name in ("symbol", "solids", "front")] + [cells.get("box", "")]


def bill_of(path: str, program: str, values: Dict[str, str], floor: List[str]) -> Dict[str, Any]:
    """The rows by symbol and the floor area, or what is wrong."""
    words = [sys.executable, str(TABLE), path, "--by", "symbol", "--decimals", "2", "--program", program]
    words += [word for name, value in values.items() for word in ("--set", f"{name}={value}")]
    words += [word for symbol in floor for word in ("--floor", symbol)]
    done = subprocess.run(words, stdin=subprocess.DEVNULL, capture_output=True, text=True, check=False)
    if done.returncode:
        return {"said": done.stderr.replace(path, "the script").strip()}
    rows = list(csv.DictReader(done.stdout.splitlines()))
    area = sum(float(cells["floors"]) for cells in rows) if floor else None
    return {"rows": [row(cells) for cells in rows], "floors": area}


class VariantBills:
    """Works what the variants of one script come to; of another script, that is asked for meanwhile, nothing is kept back."""

    def __init__(self, program: str, told: Told) -> None:
        self.program, self.told, self.turn = program, told, 0

    def forget(self) -> None:
        """What was asked for is of a script that isn't the last one any more."""
        self.turn += 1

    def begin(self, lines: List[str]) -> None:
        """Begins to tell the bill of the script's own values and of each variant."""
        self.forget()
        threading.Thread(target=self.work, args=(lines, self.turn), daemon=True).start()

    def work(self, lines: List[str], turn: int) -> None:
        found: Dict[str, Any] = {}
        for name, bill in self.bills(lines):
            if turn != self.turn:
                return
            found[name] = bill
            self.told(lines, dict(found))

    def bills(self, lines: List[str]) -> Iterator[Tuple[str, Dict[str, Any]]]:
        with tempfile.TemporaryDirectory() as folder:
            path = Path(folder) / "town.cga"
            path.write_bytes(text_of(lines))
            for name, values in {SCRIPT: {}, **variants(lines)}.items():
                yield name, bill_of(str(path), self.program, values, floors(lines))
