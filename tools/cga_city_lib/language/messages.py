"""Messages over a pair of streams: a head that tells the length, and JSON."""
import json
import threading
from typing import Any, BinaryIO, Dict, Optional

from ..call import Refused

Message = Dict[str, Any]


class Streams:
    """Reads one message after the other; several threads may write."""

    def __init__(self, source: BinaryIO, sink: BinaryIO) -> None:
        self.source, self.sink, self.lock = source, sink, threading.Lock()

    def read(self) -> Optional[Message]:
        """The next message; nothing at the end."""
        length = None
        while True:
            line = self.source.readline()
            if not line:
                return None
            name, _, value = line.decode("latin-1").strip().partition(":")
            if not name and length is not None:
                break
            if name.lower() == "content-length" and value.strip().isdigit():
                length = int(value)
            elif name.lower() not in ("content-length", "content-type"):
                raise Refused(
                    "standard input has no messages of the Language Server Protocol: an editor starts this tool"
                )
        data = self.source.read(length)
        return json.loads(data) if len(data) == length else None

    def write(self, message: Message) -> None:
        data = json.dumps({"jsonrpc": "2.0", **message}).encode()
        with self.lock:
            self.sink.write(b"Content-Length: %d\r\n\r\n" % len(data) + data)
            self.sink.flush()

    def notify(self, method: str, params: Any) -> None:
        self.write({"method": method, "params": params})
