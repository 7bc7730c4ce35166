"""A client of tools/language_server, as an editor is one."""
import json
import subprocess
import sys
from pathlib import Path
from typing import Any, Dict, List

TOP = Path(__file__).resolve().parent.parent.parent


class Client:
    """A server over pipes, and the notifications that it has sent so far."""

    def __init__(self, *words: str) -> None:
        self.process = subprocess.Popen(
            [sys.executable, str(TOP / "tools" / "language_server"), *words],
            stdin=subprocess.PIPE,
            stdout=subprocess.PIPE,
            stderr=subprocess.PIPE,
        )
        self.number, self.told = 0, []  # type: int, List[Dict]

    def send(self, message: Dict) -> None:
        data = json.dumps({"jsonrpc": "2.0", **message}).encode()
        self.process.stdin.write(b"Content-Length: %d\r\n\r\n%b" % (len(data), data))
        self.process.stdin.flush()

    def read(self) -> Dict:
        length = 0
        while True:
            line = self.process.stdout.readline().strip()
            if not line:
                return json.loads(self.process.stdout.read(length))
            length = int(line.split(b":")[1])

    def notify(self, method: str, **params: Any) -> None:
        self.send({"method": method, "params": params})

    def ask(self, method: str, **params: Any) -> Any:
        """The result of a request, or the error's text."""
        self.number += 1
        self.send({"id": self.number, "method": method, "params": params})
        while True:
            answer = self.read()
            if answer.get("id") == self.number:
                return answer["error"]["message"] if "error" in answer else answer["result"]
            self.told.append(answer)

    def open(self, uri: str, text: str) -> None:
        self.notify("textDocument/didOpen", textDocument={"uri": uri, "text": text, "languageId": "cga_city"})

    def found(self) -> List[Dict]:
        """The next findings that the server tells."""
        while not self.told:
            self.told.append(self.read())
        return self.told.pop(0)["params"]["diagnostics"]

    def end(self) -> int:
        self.ask("shutdown")
        self.notify("exit")
        self.process.communicate(timeout=20)
        return self.process.returncode
