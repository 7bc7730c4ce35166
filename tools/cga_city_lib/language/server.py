"""Which request gets which answer. A thread of its own looks at scripts, so that an answer never waits for a run."""
import queue
import threading
from typing import Any, Callable, Dict, List, Optional

from ..call import Refused
from .completion import completions
from .edits import formatted, location, places, renamed, renumbered
from .fates import Fates, fates
from .findings import build_if_needed, findings, runs_by
from .hover import hover
from .messages import Message, Streams
from .names import at_place, names_of
from .text import Document

METHOD_MISSING, FAILED = -32601, -32803
KINDS = {"symbol": 5, "attribute": 14, "lot": 18, "asset": 17}
ABLE = {
    "textDocumentSync": {"openClose": True, "change": 1, "save": True},
    "completionProvider": {"triggerCharacters": ['"', ".", " ", "(", "{", "|"]},
    "hoverProvider": True,
    "definitionProvider": True,
    "referencesProvider": True,
    "renameProvider": {"prepareProvider": True},
    "documentFormattingProvider": True,
    "documentSymbolProvider": True,
    "codeActionProvider": True,
}
NO_FATES = fates([], lambda script: [])


class Server:
    """The open scripts, and what is known of each."""

    def __init__(self, streams: Streams, program: str) -> None:
        self.streams, self.program = streams, program
        self.documents: Dict[str, Document] = {}
        self.fates: Dict[str, Fates] = {}
        self.changed: "queue.Queue[Optional[str]]" = queue.Queue()
        self.is_shut = False

    def work(self) -> int:
        """Answers until the editor ends it; the status is 0 where it said so before."""
        looking = threading.Thread(target=self.look, daemon=True)
        looking.start()
        message = self.streams.read()
        while message is not None and message.get("method") != "exit":
            self.take(message)
            message = self.streams.read()
        return 0 if self.is_shut else 1

    def take(self, message: Message) -> None:
        method, params = message.get("method", ""), message.get("params") or {}
        answer = METHODS.get(method)
        if "id" not in message:
            if answer:
                answer(self, params)
        elif answer is None:
            self.fail(message["id"], METHOD_MISSING, f"{method} isn't answered")
        else:
            self.reply(message["id"], answer, params)

    def reply(self, number: Any, answer: Callable, params: Dict) -> None:
        try:
            self.streams.write({"id": number, "result": answer(self, params)})
        except Refused as fault:
            self.fail(number, FAILED, str(fault))
        except (KeyError, TypeError, IndexError) as fault:
            self.fail(number, FAILED, f"the request lacks {fault}")

    def fail(self, number: Any, code: int, text: str) -> None:
        self.streams.write({"id": number, "error": {"code": code, "message": text}})

    # ---- the thread that looks at scripts

    def look(self) -> None:
        """Looks at each script that has changed, at its last text alone."""
        build_if_needed(self.program)
        while True:
            waiting = [self.changed.get()]
            while not self.changed.empty():
                waiting.append(self.changed.get())
            try:
                self.look_at([self.documents[uri] for uri in dict.fromkeys(waiting) if uri in self.documents])
            except (Refused, OSError, ValueError, KeyError, RecursionError) as fault:
                self.streams.notify("window/logMessage", {"type": 1, "message": f"cga_city: {fault}"})

    def look_at(self, documents: List[Document]) -> None:
        """Tells what is found in these scripts, and keeps the fates of their rules."""
        runs = runs_by(self.program)
        for document in documents:
            self.tell(document.uri, findings(document, runs))
            self.fates[document.uri] = fates(document.lines, runs.answer)

    def tell(self, uri: str, found: List[Dict]) -> None:
        self.streams.notify("textDocument/publishDiagnostics", {"uri": uri, "diagnostics": found})

    # ---- notifications

    def start(self, params: Dict) -> Dict:
        return {"capabilities": ABLE, "serverInfo": {"name": "cga_city"}}

    def shut(self, params: Dict) -> None:
        self.is_shut = True

    def opened(self, params: Dict) -> None:
        self.set_text(params["textDocument"]["uri"], params["textDocument"]["text"])

    def edited(self, params: Dict) -> None:
        self.set_text(params["textDocument"]["uri"], params["contentChanges"][-1]["text"])

    def closed(self, params: Dict) -> None:
        self.documents.pop(params["textDocument"]["uri"], None)
        self.tell(params["textDocument"]["uri"], [])

    def set_text(self, uri: str, text: str) -> None:
        self.documents[uri] = Document(uri, text)
        self.changed.put(uri)

    # ---- requests

    def at(self, params: Dict) -> tuple:
        """The script, the line and the byte that a request is about."""
        document = self.document(params)
        line, unit = params["position"]["line"], params["position"]["character"]
        return document, line, document.byte(line, unit)

    def document(self, params: Dict) -> Document:
        uri = params["textDocument"]["uri"]
        if uri not in self.documents:
            raise Refused(f"{uri} isn't open")
        return self.documents[uri]

    def complete(self, params: Dict) -> List[Dict]:
        return completions(*self.at(params))

    def hovered(self, params: Dict) -> Optional[Dict]:
        document, line, byte = self.at(params)
        return hover(document, line, byte, self.fates.get(document.uri, NO_FATES))

    def definition(self, params: Dict) -> List[Dict]:
        document, line, byte = self.at(params)
        return [location(document, found) for found in places(document, line, byte) if found.says]

    def references(self, params: Dict) -> List[Dict]:
        document, line, byte = self.at(params)
        is_all = params.get("context", {}).get("includeDeclaration", True)
        return [location(document, found) for found in places(document, line, byte) if is_all or not found.says]

    def renaming(self, params: Dict) -> Optional[Dict]:
        document, line, byte = self.at(params)
        found = at_place(document, line, byte)
        return location(document, found[0])["range"] if found else None

    def rename(self, params: Dict) -> Dict:
        return renamed(*self.at(params), params["newName"])

    def format(self, params: Dict) -> List[Dict]:
        return formatted(self.document(params))

    def symbols(self, params: Dict) -> List[Dict]:
        document = self.document(params)
        found = [one for one in names_of(document) if one.says and one.kind in KINDS]
        return [{"name": one.name, "kind": KINDS[one.kind], "location": location(document, one)} for one in found]

    def actions(self, params: Dict) -> List[Dict]:
        """Other numbers of rules, where they would be others."""
        document = self.document(params)
        edits = renumbered(document)
        action = {
            "title": "Number the rules in steps of 10",
            "kind": "source",
            "edit": {"changes": {document.uri: edits}},
        }
        return [action] if edits else []


METHODS: Dict[str, Callable] = {
    "initialize": Server.start,
    "shutdown": Server.shut,
    "textDocument/didOpen": Server.opened,
    "textDocument/didChange": Server.edited,
    "textDocument/didClose": Server.closed,
    "textDocument/completion": Server.complete,
    "textDocument/hover": Server.hovered,
    "textDocument/definition": Server.definition,
    "textDocument/references": Server.references,
    "textDocument/prepareRename": Server.renaming,
    "textDocument/rename": Server.rename,
    "textDocument/formatting": Server.format,
    "textDocument/documentSymbol": Server.symbols,
    "textDocument/codeAction": Server.actions,
}
