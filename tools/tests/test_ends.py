"""Ends that another process made not to block: a tool and what it begins wait at them, and nothing is cut."""
import asyncio
import os
import pty
import subprocess
import sys
import threading
import time
import tty
import unittest
from pathlib import Path

TOOLS = Path(__file__).resolve().parent.parent
SIZE = 300_000
# passes standard input on as the launcher's program does, which takes a call that would have to wait for a fault
PASS = """
import os, sys
sys.path.insert(0, sys.argv[1])
from cga_city_lib.ends import wait_at_ends
wait_at_ends()
script = b"".join(iter(lambda: os.read(0, 4096), b""))
while script:
    script = script[os.write(1, script):]
"""


def begun(given: int, taken: int) -> "subprocess.Popen[bytes]":
    words = [sys.executable, "-c", PASS, str(TOOLS)]
    return subprocess.Popen(words, stdin=given, stdout=taken, stderr=subprocess.DEVNULL)


def drained(end: int) -> bytes:
    """All that comes out of an end, once it is full; its writer may be a terminal that is closed."""
    time.sleep(0.3)
    found = b""
    try:
        while piece := os.read(end, 65536):
            found += piece
    except OSError:
        pass
    return found


def fed(end: int, text: bytes) -> threading.Thread:
    def feed() -> None:
        with os.fdopen(end, "wb") as file:
            file.write(text)

    thread = threading.Thread(target=feed)
    thread.start()
    return thread


class Pipes(unittest.TestCase):
    def test_all_comes_through(self) -> None:
        given, into = os.pipe()
        out, taken = os.pipe()
        for end in (given, taken):
            os.set_blocking(end, False)
        process = begun(given, taken)
        os.close(given)
        os.close(taken)
        feeding = fed(into, b"x" * SIZE)
        found = drained(out)
        feeding.join()
        os.close(out)
        self.assertEqual((process.wait(), found), (0, b"x" * SIZE))


class Asyncio(unittest.TestCase):
    def test_a_pipe_that_asyncio_writes(self) -> None:
        """asyncio makes its own end of a pipe not to block; here a process is handed that very end."""

        async def passed() -> bytes:
            given, into = os.pipe()
            out, taken = os.pipe()
            transport, _ = await asyncio.get_running_loop().connect_write_pipe(
                asyncio.BaseProtocol, os.fdopen(os.dup(taken), "wb", 0)
            )
            self.assertFalse(os.get_blocking(taken))
            process = begun(given, taken)
            transport.close()
            os.close(given)
            os.close(taken)
            feeding = fed(into, b"y" * SIZE)
            found = await asyncio.get_running_loop().run_in_executor(None, drained, out)
            feeding.join()
            os.close(out)
            self.assertEqual(process.wait(), 0)
            return found

        self.assertEqual(asyncio.run(passed()), b"y" * SIZE)


class Terminal(unittest.TestCase):
    def test_a_terminal_that_node_shares(self) -> None:
        """Node leaves a terminal that it shares so that it doesn't block."""
        outer, inner = pty.openpty()
        tty.setraw(inner)
        os.set_blocking(inner, False)
        given, into = os.pipe()
        process = begun(given, inner)
        os.close(given)
        os.close(inner)
        feeding = fed(into, b"z" * SIZE)
        found = drained(outer)
        feeding.join()
        os.close(outer)
        self.assertEqual((process.wait(), found), (0, b"z" * SIZE))


if __name__ == "__main__":
    unittest.main()
