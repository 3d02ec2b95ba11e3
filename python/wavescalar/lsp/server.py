"""The requests: which methods there are, what each answers, and the life of the server.

Messages are read ahead by a thread. A request about a text that a later message changes is answered at once, with
`content modified`, and one that is cancelled with `cancelled`. A text of more than `large` characters has a process of its
own (`aside.py`), so that no request waits for it here.
"""

from __future__ import annotations

import queue
import sys
import threading
import traceback
from collections import Counter
from dataclasses import dataclass
from functools import lru_cache, partial
from typing import Any, BinaryIO, Callable

from wavescalar.lsp import actions, colours, renames, wire
from wavescalar.lsp.analysis import Analysis, Symbol
from wavescalar.lsp.aside import AT_ONCE, IN_TIME, Aside, Glance
from wavescalar.lsp.assemblies import AssemblyText
from wavescalar.lsp.background import DELAY, Checker
from wavescalar.lsp.documents import Document, changed, document_of
from wavescalar.lsp.faults import WARNING, Programs, diagnostic, faults_of
from wavescalar.lsp.jobs import JobText
from wavescalar.lsp.large import LargeText
from wavescalar.lsp.layout import NoLayout, formatted
from wavescalar.lsp.renames import NoRename
from wavescalar.lsp.wire import BadMessage, Closed, Message, Sender
from wavescalar.programs import usual, usual_linker

INCREMENTAL = 2  # how texts are kept alike
MESSAGE_INFO = 3
LARGE = 60000  # characters of a text from which on it has a process of its own
CAPABILITIES: dict[str, Any] = {
    "positionEncoding": "utf-16",
    "textDocumentSync": {"openClose": True, "change": INCREMENTAL, "save": True},
    "hoverProvider": True, "definitionProvider": True, "referencesProvider": True, "documentSymbolProvider": True,
    "documentFormattingProvider": True, "completionProvider": {"triggerCharacters": [":", ">", "|"]},
    "renameProvider": {"prepareProvider": True}, "codeActionProvider": {"codeActionKinds": ["quickfix", "source"]},
    "semanticTokensProvider": {"legend": {"tokenTypes": list(colours.TYPES), "tokenModifiers": list(colours.MODIFIERS)},
                               "full": True, "range": True},
}
# A message, its body, and whether it was read to its end.
Read = tuple[Message, bytes]


class Refusal(Exception):
    """A request that can't be done: its code, and why."""

    def __init__(self, code: int, told: str) -> None:
        super().__init__(told)
        self.code, self.told = code, told


@dataclass(frozen=True)
class Settings:
    """What a line of wsc-lsp says. programs: those that are asked; delay: seconds from a change to its diagnostics; large:
    characters of a text from which on it has a process of its own, or 0 for never."""

    programs: Programs
    delay: float = DELAY
    large: int = LARGE


def usual_settings() -> Settings:
    """Those of a line without options."""
    return Settings(Programs(usual(), usual_linker()))


@lru_cache(maxsize=8)
def analysis_of(document: Document) -> Analysis:
    """What is said of a text; that of the last texts is kept."""
    if document.language == "job":
        return JobText(document)
    return AssemblyText(document)


def uri_of(message: Message) -> str:
    """The text that a message is about; nothing where it is about none."""
    params = message.get("params")
    item = params.get("textDocument") if isinstance(params, dict) else None
    uri = item.get("uri") if isinstance(item, dict) else None
    return uri if isinstance(uri, str) else ""


class Ahead:
    """Messages that are read ahead: how often a text is still to be changed, and what was cancelled."""

    def __init__(self, stream: BinaryIO) -> None:
        self._stream = stream
        self._read: queue.Queue[Read | BadMessage | Closed] = queue.Queue()
        self._lock = threading.Lock()
        self._changes: Counter[str] = Counter()
        self._cancelled: set[Any] = set()
        threading.Thread(target=self._work, name="reading", daemon=True).start()

    def _work(self) -> None:
        while True:
            try:
                read = wire.receive(self._stream)
            except BadMessage as fault:
                self._read.put(fault)
                continue
            except (Closed, OSError, ValueError):  # ValueError: the stream is closed here
                self._read.put(Closed())
                return
            message = read[0]
            with self._lock:
                if message.get("method") == "textDocument/didChange":
                    self._changes[uri_of(message)] += 1
                elif message.get("method") == "$/cancelRequest" and isinstance(message.get("params"), dict):
                    number = message["params"].get("id")
                    if isinstance(number, (int, str)):
                        self._cancelled.add(number)
            self._read.put(read)
            if message.get("method") == "exit":
                return  # nothing comes behind it, and Python can't end while its standard input is read

    def take(self) -> Read:
        """The next message. Raises BadMessage and Closed as `wire.receive`."""
        read = self._read.get()
        if isinstance(read, (BadMessage, Closed)):
            raise read
        if read[0].get("method") == "textDocument/didChange":
            with self._lock:
                self._changes[uri_of(read[0])] -= 1
        return read

    def why_not(self, message: Message) -> tuple[int, str] | None:
        """Why a request needs no answer any more: the code and the words of its error; nothing where it does."""
        number = message.get("id")
        with self._lock:
            if isinstance(number, (int, str)) and number in self._cancelled:
                self._cancelled.discard(number)
                return wire.CANCELLED, "cancelled"
            uri = uri_of(message)
            return (wire.CONTENT_MODIFIED, "the text has changed") if uri and self._changes[uri] > 0 else None


class Server:
    """A server on two streams."""

    def __init__(self, source: BinaryIO, sink: BinaryIO, settings: Settings) -> None:
        self._ahead, self._sender, self._settings = Ahead(source), Sender(sink), settings
        self._programs = settings.programs
        self._documents: dict[str, Document] = {}
        self._asides: dict[str, Aside] = {}
        self._state = "new"  # then `ready`, then `down` once it is asked to shut down
        self._checker = Checker(self._faults, self._publish, settings.delay)
        self._requests: dict[str, Callable[[Any], Any]] = {
            "initialize": self._initialize, "shutdown": self._shutdown, "textDocument/hover": self._hover,
            "textDocument/definition": self._definition, "textDocument/references": self._references,
            "textDocument/documentSymbol": self._symbols, "textDocument/formatting": self._formatting,
            "textDocument/completion": self._completion, "textDocument/prepareRename": self._renamed,
            "textDocument/rename": self._rename, "textDocument/codeAction": self._actions,
            "textDocument/semanticTokens/full": self._colours, "textDocument/semanticTokens/range": self._colours,
        }
        self._notes: dict[str, Callable[[Any, bytes], None]] = {
            "textDocument/didOpen": self._opened, "textDocument/didChange": self._changed,
            "textDocument/didSave": self._saved, "textDocument/didClose": self._closed,
        }

    def serve(self) -> int:
        """Answers until it is told to exit: status 0 where it was asked to shut down before, else 1."""
        try:
            while True:
                try:
                    message, body = self._ahead.take()
                except BadMessage as fault:
                    self._sender.fault(None, wire.PARSE_ERROR, str(fault))
                    continue
                if message.get("method") == "exit":
                    break
                self._handle(message, body)
        except Closed:
            pass
        finally:
            for aside in self._asides.values():
                aside.end()
            self._checker.end()
        return 0 if self._state == "down" else 1

    # Messages.

    def _handle(self, message: Message, body: bytes) -> None:
        method, number = message.get("method"), message.get("id")
        if not isinstance(method, str):
            if "result" not in message and "error" not in message:
                self._sender.fault(number, wire.INVALID_REQUEST, "a message has a method")
            return
        if "id" not in message:
            self._note(method, message.get("params"), body)
            return
        if why := self._ahead.why_not(message):
            self._sender.fault(number, *why)
            return
        aside = self._asides.get(uri_of(message))
        if aside and self._state == "ready" and method in self._requests and isinstance(number, (int, str)):
            self._ask_aside(aside, message, body)
            return
        try:
            self._sender.answer(number, self._answer(method, message.get("params")))
        except Refusal as refusal:
            self._sender.fault(number, refusal.code, refusal.told)

    def _ask_aside(self, aside: Aside, message: Message, body: bytes) -> None:
        """Has a request about a large text answered beside. What its line alone tells is told where that takes long."""
        method, params = message["method"], message.get("params")

        def told(glance: Glance) -> Any:
            try:
                return glance(aside.text, params)
            except Exception:  # these parameters can't be taken; the other process says so, if it comes to it
                traceback.print_exc(file=sys.stderr)
                return None

        if method in AT_ONCE and (made := told(AT_ONCE[method])) is not None:
            self._sender.answer(message["id"], made)
        else:
            aside.ask(message["id"], body, partial(told, IN_TIME[method]) if method in IN_TIME else None)

    def _answer(self, method: str, params: Any) -> Any:
        if self._state == "down":
            raise Refusal(wire.INVALID_REQUEST, "the server is shut down")
        if self._state == "new" and method != "initialize":
            raise Refusal(wire.NOT_INITIALIZED, "the first request is `initialize`")
        act = self._requests.get(method)
        if act is None:
            raise Refusal(wire.NO_METHOD, f"there is no method {method}")
        try:
            return act(params)
        except (KeyError, TypeError, AttributeError, IndexError) as fault:
            traceback.print_exc(file=sys.stderr)
            raise Refusal(wire.INVALID_PARAMS, f"{method}: these parameters can't be taken: {fault!r}") from fault
        except (Refusal, Closed):
            raise
        except NoRename as fault:
            raise Refusal(wire.REQUEST_FAILED, str(fault)) from fault
        except Exception as fault:  # as where the program can't be run: the server goes on
            traceback.print_exc(file=sys.stderr)
            raise Refusal(wire.INTERNAL_ERROR, f"{method}: {fault}") from fault

    def _note(self, method: str, params: Any, body: bytes) -> None:
        """A notification; one that can't be taken is told to standard error alone, since it has no answer."""
        if method == "$/cancelRequest" and isinstance(params, dict):
            for each in self._asides.values():
                each.cancel(params.get("id"))
        act = self._notes.get(method)
        if act is None or self._state != "ready":
            return
        try:
            aside = self._asides.get(uri_of({"params": params}))
            act(params, body)
            if aside:
                aside.tell(body)
        except Closed:
            raise
        except Exception:
            traceback.print_exc(file=sys.stderr)

    # The life.

    def _initialize(self, params: Any) -> Any:
        if self._state != "new":
            raise Refusal(wire.INVALID_REQUEST, "it is initialized already")
        self._state = "ready"
        return {"capabilities": CAPABILITIES, "serverInfo": {"name": "wsc-lsp"}}

    def _shutdown(self, params: Any) -> None:
        self._state = "down"
        self._documents.clear()

    # Texts.

    def _opened(self, params: Any, body: bytes) -> None:
        document = document_of(params["textDocument"])
        if old := self._asides.pop(document.uri, None):
            old.end()
        if not self._set_aside(document, body):
            self._documents[document.uri] = document
            self._checker.look(document, at_once=True)

    def _set_aside(self, document: Document, body: bytes | None = None) -> bool:
        """Gives a large text a process of its own: whether it has one. body: as `Aside.open` has it."""
        if not self._settings.large or len(document.text) <= self._settings.large:
            return False
        self._checker.leave(document.uri)
        options = ["--wsc", self._programs.wsc, "--wsl", self._programs.wsl, "--delay", str(self._settings.delay)]
        aside = Aside(options, self._sender, LargeText(document))
        self._documents.pop(document.uri, None)
        self._asides[document.uri] = aside
        aside.open(document, body)
        return True

    def _changed(self, params: Any, body: bytes) -> None:
        uri, version = params["textDocument"]["uri"], params["textDocument"]["version"]
        if aside := self._asides.get(uri):
            aside.text.change(version, params["contentChanges"])
            return
        document = changed(self._documents[uri], version, params["contentChanges"])
        if not self._set_aside(document):
            self._documents[uri] = document
            self._checker.look(document)

    def _saved(self, params: Any, body: bytes) -> None:
        uri = params["textDocument"]["uri"]
        if uri not in self._asides:
            self._checker.look(self._documents[uri], at_once=True)

    def _closed(self, params: Any, body: bytes) -> None:
        uri = params["textDocument"]["uri"]
        if aside := self._asides.pop(uri, None):
            aside.end()
            self._publish(aside.text, [])
        else:
            self._checker.forget(self._documents.pop(uri))

    def _faults(self, document: Document) -> list[dict[str, Any]]:
        """The diagnostics of a text; that none can be made is one too."""
        try:
            return faults_of(document, self._programs)
        except Exception as fault:  # whatever a text does to the tools, the server goes on
            traceback.print_exc(file=sys.stderr)
            return [diagnostic(document, (0, 0), "tools", f"the text can't be looked at: {fault}", WARNING)]

    def _publish(self, document: Document | LargeText, found: list[dict[str, Any]]) -> None:
        try:
            self._sender.notify("textDocument/publishDiagnostics",
                                {"uri": document.uri, "version": document.version, "diagnostics": found})
        except Closed:
            pass

    # What is asked of a place.

    def _document(self, params: Any) -> Document:
        uri = params["textDocument"]["uri"]
        if uri not in self._documents:
            raise Refusal(wire.INVALID_PARAMS, f"{uri} isn't open")
        return self._documents[uri]

    def _place(self, params: Any) -> tuple[Document, Analysis, int]:
        document = self._document(params)
        return document, analysis_of(document), document.offset(params["position"])

    def _hover(self, params: Any) -> Any:
        document, said, offset = self._place(params)
        found = said.hover(offset)
        return found and {"contents": {"kind": "markdown", "value": found.told}, "range": document.range(found.span)}

    def _definition(self, params: Any) -> Any:
        document, said, offset = self._place(params)
        return [_location(document, it.span) for it in said.index.definitions(offset)]

    def _references(self, params: Any) -> Any:
        document, said, offset = self._place(params)
        declared = bool(params.get("context", {}).get("includeDeclaration", True))
        return [_location(document, it.span) for it in said.index.references(offset, declared)]

    def _symbols(self, params: Any) -> Any:
        document = self._document(params)
        return [_symbol(document, it) for it in analysis_of(document).symbols()]

    def _completion(self, params: Any) -> Any:
        _, said, offset = self._place(params)
        return [{"label": it.label, "kind": it.kind, "detail": it.detail} for it in said.completions(offset)]

    def _formatting(self, params: Any) -> Any:
        """The whole text in its printed form; none where it has none, which is said."""
        document = self._document(params)
        try:
            made = formatted(document, self._programs.wsc)
        except NoLayout as why:
            self._sender.notify("window/showMessage", {"type": MESSAGE_INFO, "message": f"not formatted: {why}"})
            return None
        return [] if made == document.text else [{"range": document.whole(), "newText": made}]

    def _renamed(self, params: Any) -> Any:
        """The name at a place that can have another; nothing where there is none."""
        document, said, offset = self._place(params)
        span = renames.name_at(document, said, offset)
        return span and {"range": document.range(span), "placeholder": document.text[span[0]:span[1]]}

    def _rename(self, params: Any) -> Any:
        document, said, offset = self._place(params)
        edits = renames.renamed(document, said, offset, params["newName"], analysis_of)
        return {"changes": {document.uri: [{"range": document.range(span), "newText": text} for span, text in edits]}}

    def _actions(self, params: Any) -> Any:
        document = self._document(params)
        return actions.of_range(document, params["range"], params["context"].get("diagnostics", []), self._programs)

    def _colours(self, params: Any) -> Any:
        document = self._document(params)
        span = tuple(document.offset(params["range"][edge]) for edge in ("start", "end")) if "range" in params else None
        begin, end = span or (0, len(document.text))
        return {"data": colours.encoded(document, analysis_of(document), (begin, end))}


def _location(document: Document, span: tuple[int, int]) -> dict[str, Any]:
    return {"uri": document.uri, "range": document.range(span)}


def _symbol(document: Document, it: Symbol) -> dict[str, Any]:
    return {"name": it.name, "kind": it.kind, "detail": it.detail, "range": document.range(it.span),
            "selectionRange": document.range(it.at), "children": [_symbol(document, inner) for inner in it.children]}
