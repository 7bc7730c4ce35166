"""The page of a preview for browsers on this machine, the changes that it asks for, and the values that it sets."""
import json
import re
from http.server import BaseHTTPRequestHandler, ThreadingHTTPServer

from .call import Refused
from .page import page
from .pipe import Ended

NAME = re.compile(r"[A-Za-z_]\w{0,31}", re.ASCII)
VALUE = re.compile(r"-?\d{1,18}(\.\d{1,18}|/\d{1,18})?", re.ASCII)
MOST = 10000  # bytes of values that are set at once


def values_of(data):
    """The values that a page sets, by their names, or None where it isn't that."""
    try:
        told = json.loads(data)
    except ValueError:
        return None
    pairs = told.items() if isinstance(told, dict) else [("", "")]
    return (
        told
        if all(isinstance(value, str) and NAME.fullmatch(name) and VALUE.fullmatch(value) for name, value in pairs)
        else None
    )


def words_of(data):
    """The words that a page sends to be kept in the script, or None where it isn't that."""
    try:
        told = json.loads(data)
    except ValueError:
        return None
    return told if isinstance(told, dict) and all(isinstance(value, str) for value in told.values()) else None


class OfThisMachine(BaseHTTPRequestHandler):
    """Replies to pages of this machine alone."""

    protocol_version = "HTTP/1.1"
    disable_nagle_algorithm = True  # else the end of a short answer waits 40 ms for an acknowledgement

    def is_own(self, name):
        """Whether a header names this server; a page of another name that leads to this machine is refused."""
        port, told = self.server.server_address[1], self.headers[name] or ""
        return told.split("//")[-1] in (f"127.0.0.1:{port}", f"localhost:{port}")

    def answer(self, status, body, kind="text/plain"):
        try:
            self.send_response(status)
            self.send_header("Content-Type", kind)
            self.send_header("Content-Length", str(len(body)))
            self.send_header("Cache-Control", "no-store")
            self.end_headers()
            self.wfile.write(body)
        except ConnectionError:
            self.close_connection = True  # the page is gone or was loaded anew

    def log_message(self, *_):
        pass


def handler(shown, watch, asks):
    # each with what reads the words of its address, and what does them; what it gives is told
    posts = {
        "/set": (values_of, watch.turn),
        "/write": (values_of, asks.write),
        **{f"/{ask.__name__}": (words_of, ask) for ask in (asks.keep, asks.compare, asks.explain, asks.open)},
    }

    class Handler(OfThisMachine):
        def do_GET(self):
            name, _, stamp = self.path.partition("?")
            if not self.is_own("Host") or name not in ("/", "/state"):
                return self.answer(404, b"")
            if name == "/":
                return self.answer(200, page().encode(), "text/html; charset=utf-8")
            self.answer(200, shown.after(stamp), "application/octet-stream")

        def do_POST(self):
            size = self.headers["Content-Length"] or ""
            is_known = self.is_own("Host") and self.is_own("Origin") and self.path in posts
            if not (is_known and size.isdigit() and int(size) <= MOST):
                self.close_connection = True
                return self.answer(404, b"")
            read, does = posts[self.path]
            told = read(self.rfile.read(int(size)))
            if told is None:
                return self.answer(404, b"")
            try:
                given = does(told)
            except (Refused, Ended) as fault:
                return self.answer(409, str(fault).encode(), "text/plain; charset=utf-8")
            self.answer(200, b"" if given is None else json.dumps(given).encode(), "application/json")

    return Handler


class Server(ThreadingHTTPServer):
    def handle_error(self, *_):
        pass  # a browser that goes away in the middle is no fault


def server(port, shown, watch, asks):
    return server_of(port, handler(shown, watch, asks))


def server_of(port, replies):
    """A server at that port, or at 8017 or else a free one."""
    for wanted in [port] if port is not None else [8017, 0]:
        try:
            return Server(("127.0.0.1", wanted), replies)
        except OSError as fault:
            problem = fault.strerror
    raise Refused(f"port {port}: {problem}")
