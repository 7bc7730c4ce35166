"""The linter in Vim's :make and in the problem matchers for VS Code, and the language server in each editor that is here."""
import json
import os
import re
import shutil
import subprocess
import tempfile
import unittest
from pathlib import Path

TESTS = Path(__file__).resolve().parent
TOP = TESTS.parent.parent
LINT = f"{TOP}/tools/lint --program {TESTS}/stored"
SCRIPTS = ["habits", "faults", "notes"]


def found_in(script):
    """Where the linter's stored lines say something: line, column, whether it is a note, and the text."""
    said = (TESTS / "lint" / f"{script}.said").read_text(encoding="utf-8")
    heads = re.findall(rf"^lint/{script}\.cga:(\d+):(\d+): (note: )?(.*)$", said, re.MULTILINE)
    return [(int(line), int(column), bool(note), text) for line, column, note, text in heads]


@unittest.skipUnless(shutil.which("vim"), "vim isn't there")
def vim(*words):
    """Vim with this editor's files alone, which ends after the words."""
    start = ["-es", "-u", "NONE", "-i", "NONE", "--cmd", f"set rtp^={TOP}/editor/vim", "--cmd", "filetype plugin on"]
    return ["vim", *start, *words, "-c", "qa!"]


class Vim(unittest.TestCase):
    def made(self, script, *commands):
        """Vim's list after :make of a script in a folder whose name has a blank and a quote."""
        with tempfile.TemporaryDirectory(prefix="a script's ") as folder:
            shutil.copy(TESTS / "lint" / f"{script}.cga", folder)
            listed = 'call writefile([json_encode(map(getqflist(), {_, it -> [it.lnum, it.col, it.type == "n", it.text, bufname(it.bufnr)]}))], "listed")'
            words = vim(*commands, f"{script}.cga", "-c", "silent make!", "-c", listed)
            env = {**os.environ, "STORED": str(TESTS / "lint" / f"{script}.replies")}
            done = subprocess.run(words, cwd=folder, env=env, capture_output=True, text=True)
            self.assertTrue((Path(folder) / "listed").exists(), done)
            return json.loads((Path(folder) / "listed").read_text(encoding="utf-8"))

    def test_make(self):
        for script in SCRIPTS:
            with self.subTest(script):
                made = self.made(script, "--cmd", f"let g:cga_lint = '{LINT}'")
                self.assertEqual([tuple(one[:4]) for one in made], found_in(script))
                self.assertEqual({one[4] for one in made}, {f"{script}.cga"})

    def test_the_linter_above_the_script(self):
        words = vim("examples/first_box.cga", "-c", "redir! > /dev/stdout | echo &makeprg | redir END")
        said = subprocess.run(words, cwd=TOP, capture_output=True, text=True).stdout
        self.assertIn(f"'{TOP}/tools/lint' %:S", said)


class Code(unittest.TestCase):
    def test_problem_matchers(self):
        told = json.loads((TOP / "editor/vscode/package.json").read_text(encoding="utf-8"))["contributes"][
            "problemMatchers"
        ]
        tasks = json.loads((TOP / "editor/vscode/tasks.json").read_text(encoding="utf-8"))["tasks"]
        self.assertEqual([f"${matcher['name']}" for matcher in told], tasks[0]["problemMatcher"])
        for script in SCRIPTS:
            found = []
            for line in (TESTS / "lint" / f"{script}.said").read_text(encoding="utf-8").splitlines():
                for matcher in told:
                    place = re.match(matcher["pattern"]["regexp"], line)
                    if place:
                        found.append((int(place[2]), int(place[3]), matcher["severity"] == "info", place[4]))
            self.assertEqual(found, found_in(script))


class Server(unittest.TestCase):
    """Each editor begins the language server for a script with a fault, and lists what it finds."""

    SCRIPT = 'rules\n1: bay : Scope.sx > 2 -> I("quat")\n2: bay -> NIL\nend\nlot a 1 0 0 1 1 bay\n'
    FOUND = 'I draws "cube"'

    def setUp(self) -> None:
        folder = tempfile.TemporaryDirectory(prefix="a script's ")
        self.addCleanup(folder.cleanup)
        self.folder = Path(folder.name)
        (self.folder / "town.cga").write_text(self.SCRIPT, encoding="utf-8")
        self.server = self.folder / "server"
        self.server.write_text(f"#!/bin/sh\nexec '{TOP}/tools/language_server' --program '{TOP}/tools/define'\n")
        self.server.chmod(0o755)

    def ran(self, *words: str) -> str:
        """What an editor wrote to the file `found`, or what it said if it wrote none."""
        env = {**os.environ, "HOME": str(self.folder)}
        done = subprocess.run(words, cwd=self.folder, env=env, capture_output=True, text=True, timeout=60)
        found = self.folder / "found"
        return found.read_text(encoding="utf-8") if found.exists() else done.stdout + done.stderr

    @unittest.skipUnless(shutil.which("nvim"), "nvim isn't there")
    def test_neovim(self) -> None:
        (self.folder / "look.lua").write_text(
            "vim.wait(20000, function() return #vim.diagnostic.get(0) > 0 end, 50)\n"
            "local found = vim.diagnostic.get(0)[1]\n"
            "vim.fn.writefile({found.lnum + 1 .. ':' .. found.col + 1 .. ' ' .. found.message}, 'found')\n"
        )
        server = f"let g:cga_language_server = '{str(self.server).replace(chr(39), chr(39) * 2)}'"
        words = ["--headless", "-u", "NONE", "--cmd", f"set rtp^={TOP}/editor/vim", "--cmd", server]
        words += ["--cmd", "filetype plugin on", "town.cga", "-c", "luafile look.lua", "-c", "qa!"]
        self.assertIn(f"2:28 {self.FOUND}", self.ran("nvim", *words))

    @unittest.skipUnless(Path("/usr/share/vim-ale").is_dir() and shutil.which("vim"), "vim with ALE isn't there")
    def test_vim(self) -> None:
        (self.folder / "look.vim").write_text(
            "runtime plugin/ale.vim\nedit\nALELint\nlet n = 0\n"
            "while empty(ale#engine#GetLoclist(bufnr('%'))) && n < 200\n  sleep 100m\n  let n += 1\nendwhile\n"
            "call writefile(map(copy(ale#engine#GetLoclist(bufnr('%'))), {_, it -> it.lnum . ':' . it.col . ' ' . it.text}), 'found')\n"
            "qa!\n"
        )
        (self.folder / "start.vim").write_text(
            f"set nocompatible\nset rtp^={TOP}/editor/vim\nset rtp+=/usr/share/vim-ale\nfiletype plugin on\n"
            f"let g:cga_language_server = getcwd() . '/server'\n"
        )
        self.assertIn(f"2:28 {self.FOUND}", self.ran("vim", "-es", "-u", "start.vim", "town.cga", "-S", "look.vim"))

    @unittest.skipUnless(shutil.which("emacs"), "emacs isn't there")
    def test_emacs(self) -> None:
        (self.folder / "look.el").write_text(
            "(require 'package) (package-initialize) (unless (require 'eglot nil t) (kill-emacs 3))\n"
            "(require 'flymake) (require 'cga-city) (setq eglot-sync-connect 20)\n"
            '(setq cga-city-language-server (list (expand-file-name "server")))\n'
            '(find-file "town.cga") (call-interactively \'eglot)\n'
            "(let ((end (+ (float-time) 20)))\n"
            "  (while (and (null (flymake-diagnostics)) (< (float-time) end)) (flymake-start) (accept-process-output nil 0.1)))\n"
            "(let ((one (car (flymake-diagnostics))))\n"
            '  (write-region (format "%d %s" (line-number-at-pos (flymake-diagnostic-beg one)) (flymake-diagnostic-text one)) nil "found"))\n'
            "(kill-emacs 0)\n"
        )
        said = self.ran("emacs", "--batch", "-L", f"{TOP}/editor/emacs", "-l", "look.el")
        if not (self.folder / "found").exists() and "eglot" not in said:
            self.skipTest("emacs has no eglot")
        self.assertRegex(said, f"^2 cga_city .*{self.FOUND}")

    @unittest.skipUnless(shutil.which("node"), "node isn't there")
    def test_code(self) -> None:
        script = str(self.folder / "town.cga")
        told = json.loads(
            self.ran("node", f"{TESTS}/vscode_stand_in.js", f"{TOP}/editor/vscode", str(self.server), script)
        )
        self.assertIn("`bay` has 2 rules", told["hover"])
        counts = [told[name] for name in ("definitions", "references", "renamed")]
        self.assertEqual((counts, told["actions"]), ([2, 3, 3], ["Number the rules in steps of 10"]))
        self.assertIn(self.FOUND, told["findings"][0])

    def test_helix(self) -> None:
        text = (TOP / "editor" / "helix" / "languages.toml").read_text(encoding="utf-8")
        server, language = re.findall(r"^\[+([\w.-]+)\]+$", text, re.MULTILINE)
        self.assertEqual((server, language), ("language-server.cga_city", "language"))
        self.assertIn('language-servers = ["cga_city"]', text)


if __name__ == "__main__":
    unittest.main()
