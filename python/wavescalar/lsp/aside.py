"""A process for one large text: a server of the same kind, to which the requests about that text are passed on.

So the reading of 100,000 lines, which takes seconds, holds nothing up. A hover or a completion that isn't answered within
`PATIENCE` is answered by what its line alone tells (`glances.py`); other requests are answered once the text is read.
"""

from __future__ import annotations

import json
import os
import pathlib
import queue
import re
import sys
import threading
from typing import Any, BinaryIO, Callable, cast

from wavescalar.lsp import glances, wire
from wavescalar.lsp.documents import Document
from wavescalar.lsp.large import LargeText
from wavescalar.lsp.wire import BadMessage, Closed, Sender
from wavescalar.programs import Stream, start

PATIENCE = 0.03  # seconds for an answer about a place, before its line alone is looked at
OWN = "aside"  # the number of the request that begins such a process
REACH = {**os.environ, "PYTHONPATH": str(pathlib.Path(__file__).resolve().parent.parent.parent)}
ANSWER = re.compile(rb'\{"jsonrpc":"2\.0","id":(-?\d+|"(?:[^"\\]|\\.)*"),')
MARKS = re.compile(rb'\{"jsonrpc":"2\.0","method":"textDocument/publishDiagnostics","params":\{"uri":"(?:[^"\\]|\\.)*",'
                   rb'"version":(-?\d+),')
# What is told of a place by its line alone.
Glance = Callable[[LargeText, Any], Any]


# What is told of a large text before the other process is asked, and what where it has no answer in time. The first kind
# gives None where it has to be asked.
AT_ONCE: dict[str, Glance] = {"textDocument/semanticTokens/range": glances.colours, "textDocument/codeAction": glances.actions}
IN_TIME: dict[str, Glance] = {"textDocument/hover": glances.hover, "textDocument/completion": glances.completion}


class Aside:
    """The process of a text. options: of its line; sender: to the editor; text: as the editor has it now."""

    def __init__(self, options: list[str], sender: Sender, text: LargeText) -> None:
        line = [sys.executable, "-m", "wavescalar.lsp.command", "--large", "0", *options]
        self._child = start(line, errors=Stream.PASSED_ON, environment=REACH)
        self._sender, self.text, self._has_ended = sender, text, False
        self._bodies: queue.Queue[bytes | None] = queue.Queue()
        self._waiting: dict[int | str, threading.Timer | None] = {}
        self._lock = threading.Lock()
        for work in (self._write, self._read):
            threading.Thread(target=work, name="aside", daemon=True).start()

    @property
    def is_alive(self) -> bool:
        """Whether the process runs."""
        return self._child.poll() is None

    def open(self, document: Document, body: bytes | None) -> None:
        """Begins with this text. body: that of the message by which the editor has opened it so, where there is one."""
        self._say(id=OWN, method="initialize", params={})
        if body is not None:
            self.tell(body)
            return
        item = {"uri": document.uri, "version": document.version, "text": document.text,
                "languageId": {"job": "wsjob", "assembly": "wsasm"}[document.language]}
        self._say(method="textDocument/didOpen", params={"textDocument": item})

    def _say(self, **message: Any) -> None:
        self.tell(json.dumps({"jsonrpc": "2.0", **message}).encode())

    def tell(self, body: bytes) -> None:
        """Passes on a notification."""
        self._bodies.put(body)

    def ask(self, number: int | str, body: bytes, quickly: Callable[[], Any] | None) -> None:
        """Passes on a request. quickly: what makes another answer, where this one isn't there in time."""
        timer = threading.Timer(PATIENCE, self._late, (number, quickly)) if quickly else None
        with self._lock:
            self._waiting[number] = timer
        if timer:
            timer.daemon = True
            timer.start()
        self.tell(body)
        if not self.is_alive:
            self._give_up()

    def cancel(self, number: Any) -> None:
        """Passes on that nobody waits for an answer any more."""
        with self._lock:
            is_waiting = isinstance(number, (int, str)) and number in self._waiting
        if is_waiting:
            self._say(method="$/cancelRequest", params={"id": number})

    def _take(self, number: int | str) -> bool:
        """Whether an answer is still due; it isn't from then on."""
        with self._lock:
            if number not in self._waiting:
                return False
            if timer := self._waiting.pop(number):
                timer.cancel()
            return True

    def _late(self, number: int | str, quickly: Callable[[], Any]) -> None:
        if self._take(number):
            try:
                self._sender.answer(number, quickly())
            except Closed:
                return
            self._say(method="$/cancelRequest", params={"id": number})

    def end(self) -> None:
        """Ends the process; what it was asked is answered with an error, and what it said of faults is told no more."""
        self._has_ended = True
        self._bodies.put(None)
        self._child.kill()
        self._child.wait()
        self._give_up()

    def _give_up(self) -> None:
        with self._lock:
            numbers = list(self._waiting)
        for number in numbers:
            if self._take(number):
                try:
                    self._sender.fault(number, wire.CONTENT_MODIFIED, "the text was closed, or its process has ended")
                except Closed:
                    return

    def _write(self) -> None:
        sender = Sender(cast(BinaryIO, self._child.stdin))
        while (body := self._bodies.get()) is not None:
            try:
                sender.pass_on(body)
            except Closed:
                return

    def _read(self) -> None:
        with cast(BinaryIO, self._child.stdout) as stream:
            while True:
                try:
                    self._pass_on(wire.receive_body(stream))
                except (BadMessage, Closed, OSError, ValueError):
                    break
        self._give_up()

    def _pass_on(self, body: bytes) -> None:
        """Gives the editor an answer that is due, and diagnostics of the text as it is now."""
        if found := ANSWER.match(body):
            number = json.loads(found[1])
            if number != OWN and self._take(number):
                self._sender.pass_on(body)
        elif marks := MARKS.match(body):
            if self.text.version == int(marks[1]) and not self._has_ended:
                self._sender.pass_on(body)
        else:
            self._sender.pass_on(body)
