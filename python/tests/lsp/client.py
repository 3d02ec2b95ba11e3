"""A client of the language server, for tests: starts it as an editor does, and speaks to it over pipes."""

from __future__ import annotations

import json
import os
import queue
import subprocess
import sys
import threading
from typing import Any

from tests.places import LIBRARY, WSC

PATIENCE = 300.0  # seconds for an answer: a loaded machine takes long
ENDED = "$/ended"  # stands for a notification once the server has ended


class Client:
    """A server and the pipes to it. notes: what it told without being asked, in order."""

    def __init__(self, *words: str) -> None:
        environment = {**os.environ, "WSC": WSC}
        self.server = subprocess.Popen([sys.executable, str(LIBRARY / "wsc-lsp"), *words], stdin=subprocess.PIPE,
                                       stdout=subprocess.PIPE, stderr=subprocess.PIPE, env=environment)
        assert self.server.stdin and self.server.stdout and self.server.stderr
        self.source, self.sink, self.errors = self.server.stdout, self.server.stdin, self.server.stderr
        self.answers: queue.Queue[dict[str, Any]] = queue.Queue()
        self.notes: queue.Queue[dict[str, Any]] = queue.Queue()
        self.said: list[bytes] = []
        self.number = 0
        self.working = [threading.Thread(target=work, daemon=True) for work in (self._read, self._listen)]
        for work in self.working:
            work.start()

    def _read(self) -> None:
        while head := self.source.readline():
            length = 0
            while head.strip():
                name, _, value = head.partition(b":")
                length = int(value) if name == b"Content-Length" else length
                head = self.source.readline()
            message = json.loads(self.source.read(length))
            (self.answers if "id" in message else self.notes).put(message)
        # whoever waits is told at once
        self.answers.put({"id": None, "error": {"code": 0, "message": "the server has ended"}})
        self.notes.put({"method": ENDED})

    def _listen(self) -> None:
        self.said += self.errors

    def raw(self, data: bytes) -> None:
        """Writes bytes as they are."""
        self.sink.write(data)
        self.sink.flush()

    def body(self, body: bytes) -> None:
        """Writes bytes as the body of a message."""
        self.raw(b"Content-Length: %d\r\n\r\n%s" % (len(body), body))

    def send(self, **message: Any) -> None:
        self.body(json.dumps({"jsonrpc": "2.0", **message}).encode())

    def tell(self, method: str, **params: Any) -> None:
        """Sends a notification."""
        self.send(method=method, params=params)

    def ask(self, method: str, **params: Any) -> Any:
        """Sends a request: its result, or its error as a pair of code and message."""
        self.number += 1
        self.send(id=self.number, method=method, params=params)
        answer = self.answers.get(timeout=PATIENCE)
        assert answer["id"] == self.number, (answer, b"".join(self.said).decode())
        return answer["result"] if "result" in answer else (answer["error"]["code"], answer["error"]["message"])

    def start(self) -> Any:
        """The first request and the note behind it; what the server can do."""
        made = self.ask("initialize", processId=os.getpid(), rootUri=None, capabilities={})
        self.tell("initialized")
        return made["capabilities"]

    def open(self, uri: str, text: str, version: int = 1, language: str = "") -> None:
        self.tell("textDocument/didOpen",
                  textDocument={"uri": uri, "languageId": language, "version": version, "text": text})

    def change(self, uri: str, version: int, *changes: dict[str, Any]) -> None:
        self.tell("textDocument/didChange", textDocument={"uri": uri, "version": version}, contentChanges=list(changes))

    def note(self, method: str) -> Any:
        """The parameters of the next notification of this method; others are left aside."""
        while True:
            message = self.notes.get(timeout=PATIENCE)
            assert message["method"] != ENDED, b"".join(self.said).decode()
            if message["method"] == method:
                return message["params"]

    def marks(self, uri: str) -> Any:
        """The next diagnostics of a text."""
        while True:
            told = self.note("textDocument/publishDiagnostics")
            if told["uri"] == uri:
                return told

    def at(self, method: str, uri: str, line: int, character: int, **more: Any) -> Any:
        """Asks about a place."""
        return self.ask(f"textDocument/{method}", textDocument={"uri": uri},
                        position={"line": line, "character": character}, **more)

    def end(self) -> int:
        """Shuts the server down: its status."""
        if self.server.poll() is None:
            self.ask("shutdown")
            self.tell("exit")
        return self.server.wait(timeout=PATIENCE)

    def close(self) -> None:
        """Takes away what is left of it."""
        self.server.kill()
        self.server.wait()
        for work in self.working:
            work.join(timeout=PATIENCE)
        for stream in (self.source, self.sink, self.errors):
            try:
                stream.close()
            except BrokenPipeError:
                pass
