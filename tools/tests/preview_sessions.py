#!/usr/bin/env python3
"""Random sessions of saves: whatever was saved before, the page of a preview holds what a page holds that is opened then.

usage: tools/tests/preview_sessions.py [--program PATH] [NUMBER [SEED]]

The program tells changes, as cga_live does; a stand-in is taken if none is said. Chromium opens both pages, and draws nothing.
"""
import os
import random
import re
import subprocess
import sys
import tempfile
from pathlib import Path

TESTS = Path(__file__).resolve().parent
sys.path.insert(0, str(TESTS))

from browser import CHROMIUM, Browser  # noqa: E402

SAVES = 8
NO_PICTURES = "window.requestAnimationFrame = () => 0"
HELD = """({
  lines: [...town.batches.values()].flatMap(({name, data, total}) => [...Array(total).keys()].map(slot => slot * FLOATS)
    .filter(at => data[at + SYMBOL] >= 0).map(at => [town.lots[data[at + LOT]], town.symbols[data[at + SYMBOL]], name,
    ...town.offset.map((from, k) => from + data[at + k]), ...data.subarray(at + SIZES, at + CODE + 1)].join(' '))).sort(),
  counts: Object.fromEntries(town.symbols.map((symbol, k) => [symbol, town.counts[k]]).filter(([, many]) => many)),
  box: town.low && [town.low, town.high].map(box => box.map((at, k) => at + town.offset[k])),
  head: ['attributes', 'values', 'rules', 'cameras', 'panel', 'variants', 'said', 'is_stale', 'stats', 'colours', 'save']
    .map(name => head[name]),
  sliders: [...document.querySelectorAll('#sliders input')].map(one => [one.id, one.value, one.parentNode.className]),
  legend: [...document.querySelectorAll('#symbols button')].map(one => one.textContent).sort(),
})"""


class Script:
    """A script that is changed at random; a typo goes away with the next change."""

    def __init__(self, chance):
        self.chance, self.typo = chance, ""
        self.rules = {1: ["house", "h", "cube"], 2: ["house", "1", "gable"], 3: ["shed", "2", "shed"]}
        self.values, self.lots, self.next = {"h": "3", "g": "2"}, {}, 0
        for _ in range(4):
            self.add()

    def add(self):
        place = f"{self.chance.randint(0, 40)} {self.chance.randint(0, 40)} {self.chance.randint(2, 9)} {self.chance.randint(2, 9)}"
        far = self.chance.choice([""] * 5 + ["90000"])
        self.lots[f"t{self.next}"] = f"{self.next} {far}{place} {self.chance.choice(['house', 'shed'])}"
        self.next += 1

    def drop(self):
        for name in self.chance.sample(list(self.lots), len(self.lots) // self.chance.choice([2, 4])):
            del self.lots[name]

    def move(self):
        if self.lots:
            name = self.chance.choice(list(self.lots))
            self.lots[name] = re.sub(r"^(\d+) \d+", rf"\1 {self.chance.randint(0, 99)}", self.lots[name])

    def turn(self):
        self.values[self.chance.choice("hg")] = str(self.chance.randint(1, 9))

    def rule(self):
        self.rules[self.chance.choice([1, 2, 3])][1:] = [
            self.chance.choice(["h", "g", "4"]),
            self.chance.choice(["cube", "gable", "hip"]),
        ]

    def turn_round(self):
        self.lots = dict(reversed(list(self.lots.items())))

    def wrong(self):
        self.typo = self.chance.choice(["lot wrong\n", "lot z 1 0 0 0 4 house\n", "rules\n"])

    def many(self):
        for _ in range(self.chance.randint(5, 30)):
            self.add()

    def change(self):
        self.typo = ""
        for _ in range(self.chance.choice([1, 1, 3])):
            self.chance.choice(
                [self.add, self.drop, self.move, self.turn, self.rule, self.turn_round, self.wrong, self.many]
            )()

    def text(self):
        rules = [
            f'{number}: {symbol} -> S(1r, {high}, 1r) I("{solid}")'
            for number, (symbol, high, solid) in self.rules.items()
        ]
        values = [f"attr {name} = {value}" for name, value in self.values.items()]
        lots = [f"lot {name} {told}" for name, told in self.lots.items()]
        return "\n".join(["version 2", "rules", *values, *rules, "end", *lots, "# slider h 1..9 step 1", self.typo])


def saved(path, text):
    other = path.with_suffix(".new")
    other.write_text(text, encoding="utf-8")
    os.replace(other, path)


def held_by(browser, tab, condition):
    with browser.on(tab):
        browser.wait(condition)
        return browser.run(HELD)


def session(browser, tabs, program, seed):
    """One preview, whose first page follows all saves, while the other one is opened anew behind each."""
    chance = random.Random(seed)
    script = Script(chance)
    with tempfile.TemporaryDirectory() as folder:
        path = Path(folder) / "town.cga"
        saved(path, script.text())
        preview = subprocess.Popen(
            [TESTS.parent / "preview", "--program", program, "--port", "0", path],
            stdout=subprocess.PIPE,
            stderr=subprocess.DEVNULL,
            text=True,
        )
        try:
            address = re.match(r"(http://127\.0\.0\.1:\d+/) ", preview.stdout.readline()).group(1)
            with browser.on(tabs[0]):
                browser.open(address)
            for save in range(1, SAVES + 1):
                follow(
                    browser,
                    tabs,
                    address,
                    f"head.save === {save} && !head.is_busy",
                    chance,
                    f"session {seed}, save {save}",
                )
                script.change()
                saved(path, script.text() + f"# save {save}\n")
        finally:
            for tab in tabs:
                with browser.on(tab):
                    browser.open("about:blank")
            preview.terminate()
            preview.wait()
            preview.stdout.close()


def follow(browser, tabs, address, condition, chance, name):
    """Compares the pages behind a save, and behind a slider that is moved in the one that was opened last."""
    with browser.on(tabs[1]):
        browser.open(address)
    same(name, *(held_by(browser, tab, condition) for tab in tabs))
    if chance.random() < 0.4:
        value = str(chance.randint(1, 9))
        with browser.on(tabs[1]):
            browser.run(f"head.is_stale ? 0 : turn('h', '{value}')")
            is_turned = browser.run("!head.is_stale")
        if is_turned:
            same(f"{name}, slider", *(held_by(browser, tab, f"head.values.h === '{value}'") for tab in tabs))


def same(name, one, other):
    for part in one:
        if one[part] != other[part]:
            raise AssertionError(
                f"{name}: {part}: the page that followed has {one[part]}, and a fresh one {other[part]}"
            )


def sessions(number, seed=1, program=TESTS / "live_stand_in"):
    browser = Browser(320, 200)
    try:
        tabs = [browser.new_tab() for _ in range(2)]
        for tab in tabs:
            with browser.on(tab):
                browser.ask("Page.enable")
                browser.ask("Page.addScriptToEvaluateOnNewDocument", source=NO_PICTURES)
        for at in range(number):
            session(browser, tabs, program, seed + at)
            yield seed + at
    finally:
        browser.close()


def main(words):
    program = TESTS / "live_stand_in"
    if words[:1] == ["--program"]:
        program, words = words[1], words[2:]
    if not CHROMIUM:
        sys.exit("SKIPPED: Chromium isn't there (apt-get install chromium)")
    for seed in sessions(*map(int, words or ["60"]), program=program):
        print(f"session {seed}: the page holds what a fresh page holds", flush=True)


if __name__ == "__main__":
    main(sys.argv[1:])
