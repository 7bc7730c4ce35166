"""How files are written, how a tool that loads is interrupted, and what all tools have in common."""
import ast
import os
import signal
import stat
import subprocess
import sys
import tempfile
import threading
import unittest
from pathlib import Path

TESTS = Path(__file__).resolve().parent
TOP = TESTS.parent.parent
sys.path[:0] = [str(TESTS), str(TESTS.parent)]

from cga_city_lib.files import write, written  # noqa: E402
from cga_city_lib.version import VERSION  # noqa: E402

TOOLS = [
    path
    for path in sorted((TOP / "tools").iterdir())
    if path.is_file() and not path.suffix and path.read_bytes().startswith(b"#!/usr/bin/env python3")
]


def put(path, data):
    with written(path) as file:
        file.write(data)


class Written(unittest.TestCase):
    def setUp(self):
        self.top = Path(tempfile.mkdtemp())
        self.addCleanup(subprocess.run, ["rm", "-r", self.top])
        self.path = self.top / "a"

    def test_a_new_file_and_one_that_is_there(self):
        put(self.path, b"1")
        self.path.chmod(0o640)
        held = self.path.open("rb")
        put(self.path, b"2")
        with held:
            self.assertEqual(
                (held.read(), self.path.read_bytes()), (b"1", b"2"), "who reads the old one reads on in it"
            )
        self.assertEqual(stat.S_IMODE(self.path.stat().st_mode), 0o640)
        self.assertEqual(os.listdir(self.top), ["a"])

    def test_a_link(self):
        for name, link in (("b", "b"), ("c/d", self.top / "c/d")):
            (self.top / name).parent.mkdir(exist_ok=True)
            self.path.symlink_to(link)
            for data in (b"new", b"old and new"):
                put(self.path, data)
                self.assertTrue(self.path.is_symlink())
                self.assertEqual((self.top / name).read_bytes(), data)
            self.path.unlink()

    def test_a_pipe(self):
        os.mkfifo(self.path)
        heard = []
        reader = threading.Thread(target=lambda: heard.append(self.path.read_bytes()))
        reader.start()
        put(self.path, b"told")
        reader.join()
        self.assertEqual(heard, [b"told"])
        self.assertTrue(stat.S_ISFIFO(self.path.stat().st_mode))

    def test_standard_output_by_its_name(self):
        code = "from cga_city_lib.files import written\nwith written('/dev/stdout') as file: file.write(b'told')"
        run = subprocess.run([sys.executable, "-c", code], stdout=subprocess.PIPE, cwd=TOP / "tools")
        self.assertEqual((run.returncode, run.stdout), (0, b"told"))
        with self.path.open("wb") as out:
            subprocess.run([sys.executable, "-c", code], stdout=out, cwd=TOP / "tools", check=True)
        self.assertEqual(self.path.read_bytes(), b"told")

    def test_what_is_not_whole(self):
        self.path.write_bytes(b"1")
        for fault in (KeyboardInterrupt, OSError(28, "No space left on device"), ValueError):
            with self.assertRaises(BaseException), written(self.path) as file:
                file.write(b"half")
                raise fault
            self.assertEqual((self.path.read_bytes(), os.listdir(self.top)), (b"1", ["a"]))

    def test_what_cannot_be_written(self):
        for path in (self.top, self.top / "no" / "a", self.path / "b"):
            self.path.write_bytes(b"1")
            with self.assertRaises(OSError) as fault, written(path):
                pass
            self.assertIn(str(path), fault.exception.filename)

    def test_the_same_bytes(self):
        self.assertEqual([write(self.path, data) for data in (b"1", b"1", b"2")], [True, False, True])


INTERRUPTS = """
import os, signal, sys, time

class Finder:
    def find_spec(self, name, *_):
        if name == "cga_city_lib.call":
            os.kill(os.getpid(), signal.SIGINT)
            time.sleep(1)

sys.meta_path.insert(0, Finder())
"""


class Tools(unittest.TestCase):
    def test_an_interrupt_while_a_tool_loads(self):
        """Each tool loads `call`; here whoever looks for that module interrupts."""
        with tempfile.TemporaryDirectory() as folder:
            Path(folder, "sitecustomize.py").write_text(INTERRUPTS)
            for tool in TOOLS:
                run = subprocess.run(
                    [sys.executable, tool],
                    env={**os.environ, "PYTHONPATH": folder},
                    capture_output=True,
                    preexec_fn=lambda: signal.signal(signal.SIGINT, signal.SIG_DFL),
                )
                self.assertEqual((run.returncode, run.stdout, run.stderr), (130, b"", b""), tool)

    def test_the_guard_comes_first(self):
        for tool in TOOLS:
            imports = [
                node for node in ast.parse(tool.read_text()).body if isinstance(node, (ast.Import, ast.ImportFrom))
            ]
            names = [getattr(node, "module", None) or node.names[0].name for node in imports]
            self.assertEqual([name for name in names if name not in ("os", "sys")][0], "cga_city_lib.guarded", tool)

    def test_version_and_help(self):
        for tool in TOOLS[::5]:
            told = subprocess.run([tool, "--version"], capture_output=True, text=True)
            self.assertEqual((told.stdout, told.stderr), (f"{tool.name} of cga_city {VERSION}\n", ""))

    def test_standard_output_that_is_closed(self):
        run = subprocess.run([TOOLS[0], "--help"], preexec_fn=lambda: os.close(1), stderr=subprocess.PIPE, text=True)
        self.assertEqual(run.returncode, 1)
        self.assertIn("standard output is closed", run.stderr)


if __name__ == "__main__":
    unittest.main()
