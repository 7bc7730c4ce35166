#!/usr/bin/env python3
"""How long a picture of the page takes in headless Chromium, where the processor alone draws.

usage: bench/frame_speed.py [--page PATH] [--size WIDTHxHEIGHT] [--seconds N] [TRIANGLES]

A town of TRIANGLES triangles, 1,000,000 if none are said, is drawn from one side after the other, in a window of 640 by 400
if no other size is said: first the way that the page takes where it finds no graphics processor. Where others work on the
machine, too, the clock tells little; so the processor seconds of the browser are told beside it. Then comes the way that it
takes on a graphics processor, by instances. For software each of 200,000 instances costs as much as a call, so a picture
takes minutes and tells nothing: of each call one instance is drawn, and only what is asked is told. That is how long the
script works for a picture, how many calls it makes, how many vertices these name, what it sends. What a graphics processor
would take isn't measured. One picture is drawn of each kind, and more as long as N seconds, 60 if none are said, aren't over;
the least counts. A page that doesn't answer for ten minutes is given up.
With --page the table goes into that page, as docs/PREVIEW.md.
"""
import argparse
import sys
import tempfile
import time
from pathlib import Path

TOP = Path(__file__).resolve().parent.parent
sys.path[:0] = [str(TOP / "tools"), str(TOP / "tools" / "tests"), str(TOP / ".ci")]

import tables  # noqa: E402
from browser import Browser  # noqa: E402
from cga_city_lib.page import packed, page  # noqa: E402

WALLS, WINDOWS = 40, 20  # of a house
A_HOUSE = 2 * WALLS + 12 * WINDOWS + 8  # triangles
AS_ON_GRAPHICS = """(() => {
  const was = WebGL2RenderingContext.prototype.getParameter;
  WebGL2RenderingContext.prototype.getParameter = function (name) {
    const got = was.call(this, name);
    return typeof got === 'string' ? got.replace(/swiftshader|llvmpipe|software/gi, 'graphics') : got;
  };
  const draws = WebGL2RenderingContext.prototype.drawElementsInstanced;
  WebGL2RenderingContext.prototype.drawElementsInstanced = function (...words) { draws.call(this, ...words.slice(0, 4), 1); };
})()"""
WATCH = """(() => {
  window.noted = {calls: 0, vertices: 0, sent: 0};
  const vertices = {drawElements: words => words[1], drawElementsInstanced: words => words[1] * words[4], drawArrays: words => words[2]};
  for (const name in vertices) {
    const was = gl[name].bind(gl);
    gl[name] = (...words) => { noted.calls++; noted.vertices += vertices[name](words); was(...words); };
  }
  for (const name of ['bufferData', 'bufferSubData']) {
    const was = gl[name].bind(gl);
    gl[name] = (...words) => { noted.sent += (words.find(word => ArrayBuffer.isView(word)) || {byteLength: 0}).byteLength; was(...words); };
  }
})()"""
PICTURE = """(() => {
  view.turn += .3;
  is_shadow_old = %s;
  Object.assign(noted, {calls: 0, vertices: 0, sent: 0});
  const drawn = () => gl.readPixels(0, 0, 1, 1, gl.RGBA, gl.UNSIGNED_BYTE, new Uint8Array(4));
  drawn(); // nothing of an earlier picture is left to do
  const from = performance.now();
  draw();
  const asked = performance.now() - from;
  drawn();
  return [asked, performance.now() - from, noted.calls, noted.vertices, noted.sent];
})()"""
PATIENCE = 600  # seconds until a page that doesn't answer is given up


def house(number):
    """A house of five floors, as lines that tell its solids."""
    x, z = 14 * (number % 60), 14 * (number // 60)
    for at in range(WALLS):
        yield f"+ h{number} wall quad {x + at % 8} {3 * (at // 8)} {z} +X+Y+Z 1 3 0"
    for at in range(WINDOWS):
        yield f"+ h{number} window cube {x + 2 * (at % 4) + 1 / 2} {3 * (at // 4) + 1} {z} -X+Y-Z 1 1.5 0.25"
    yield f"+ h{number} roof gable {x} 15 {z} +X+Y+Z 8 3 9"


def opened(triangles, folder, size, is_as_on_graphics):
    lines = [line for number in range(-(-triangles // A_HOUSE)) for line in house(number)]
    data = packed("a town", [line[2:] for line in lines], {})
    path = Path(folder) / "town.html"
    path.write_text(page(data), encoding="utf-8")
    browser = Browser(*size, patience=PATIENCE)
    if is_as_on_graphics:
        browser.ask("Page.enable")
        browser.ask("Page.addScriptToEvaluateOnNewDocument", source=AS_ON_GRAPHICS)
    browser.ask("Page.navigate", url=path.as_uri())
    browser.wait(
        "document.readyState === 'complete' && typeof town === 'object' && town.low !== null && is_asked === false",
        PATIENCE,
    )
    browser.run(WATCH)
    return browser


def pictures(browser, is_shadow_old, seconds):
    """The least of what each picture takes and asks for, with the processor seconds of the browser, and how many were drawn."""
    end, found = time.monotonic() + seconds, []
    while not found or time.monotonic() < end and len(found) < 10:
        before = browser.seconds()
        told = browser.run(PICTURE % ("true" if is_shadow_old else "false"))
        found.append([*told, browser.seconds() - before])
    return [*map(min, zip(*found)), len(found)]


def row(triangles, folder, size, seconds, way, is_as_on_graphics):
    browser = opened(triangles, folder, size, is_as_on_graphics)
    try:
        assert browser.run("is_slow") != is_as_on_graphics
        asked, drawn, calls, vertices, sent, worked, number = pictures(browser, False, seconds)
        *_, with_shadows, more = pictures(browser, True, seconds)
        count = browser.run("town.triangles")
        software = (
            ("", "", "") if is_as_on_graphics else (f"{drawn / 1000:.1f} s", f"{worked:.1f} s", f"{with_shadows:.1f} s")
        )
        return (
            way,
            f"{size[0]} by {size[1]}",
            f"{count:,}",
            f"{vertices:,}",
            calls,
            sent,
            f"{asked:.1f} ms",
            *software,
            number + more,
        )
    finally:
        browser.close()


def main():
    parser = argparse.ArgumentParser(
        usage="bench/frame_speed.py [--page PATH] [--size WIDTHxHEIGHT] [--seconds N] [TRIANGLES]", allow_abbrev=False
    )
    parser.add_argument("--page")
    parser.add_argument("--size", type=lambda word: tuple(map(int, word.split("x"))), default=(640, 400))
    parser.add_argument("--seconds", type=float, default=60)
    parser.add_argument("triangles", type=int, nargs="?", default=1_000_000)
    told = parser.parse_args()
    with tempfile.TemporaryDirectory() as folder:
        rows = []
        for way, is_as_on_graphics in (("by software", False), ("as asked of a graphics processor", True)):
            rows.append(row(told.triangles, folder, told.size, told.seconds, way, is_as_on_graphics))
            print(*rows[-1], sep="; ", file=sys.stderr, flush=True)
    head = [
        "A picture",
        "Size",
        "Triangles",
        "Vertices",
        "Calls",
        "Bytes sent",
        "Script",
        "By the clock",
        "Processor",
        "With new shadows",
        "Pictures",
    ]
    tables.tell(tables.table(head, rows), told.page)


if __name__ == "__main__":
    main()
