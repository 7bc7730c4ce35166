"""A PDF of a drawing in SVG, by rsvg-convert or by Chromium, where one of them is there."""
import shutil
import subprocess
import tempfile
from pathlib import Path
from typing import List, Optional, Tuple

from .call import Refused
from .perspective import chromium

PATIENCE = 120


def command(source: Path, target: Path, paper: Tuple[float, float], folder: Path) -> Optional[List[str]]:
    if shutil.which("rsvg-convert"):
        return ["rsvg-convert", "--format=pdf", f"--output={target}", str(source)]
    browser = chromium()
    if browser is None:
        return None
    page = folder / "page.html"
    size = f"{paper[0]:g}mm {paper[1]:g}mm"
    page.write_text(
        f'<style>@page {{ size: {size}; margin: 0 }} body {{ margin: 0 }} img {{ display: block; width: {paper[0]:g}mm }}</style><img src="{source.as_uri()}">',
        encoding="utf-8",
    )
    words = ["--headless=new", "--no-sandbox", "--no-pdf-header-footer", f"--user-data-dir={folder}/profile"]
    return [browser, *words, f"--print-to-pdf={target}", page.as_uri()]


def write_pdf(source: Path, target: Path, paper: Tuple[float, float]) -> bool:
    """Whether a program is there that makes it; one that fails is refused with its name."""
    with tempfile.TemporaryDirectory() as name:
        made = Path(name) / "sheet.pdf"
        words = command(source.resolve(), made, paper, Path(name))
        if words is None:
            return False
        try:
            done = subprocess.run(
                words, stdout=subprocess.DEVNULL, stderr=subprocess.PIPE, timeout=PATIENCE, check=False
            )
        except (OSError, subprocess.TimeoutExpired):
            raise Refused(f"{words[0]} makes no PDF of {source}: {source} itself is whole") from None
        if done.returncode or not made.exists():
            raise Refused(f"{words[0]} makes no PDF of {source}: {source} itself is whole")
        target.write_bytes(made.read_bytes())
        return True
