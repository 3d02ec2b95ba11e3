"""The base protocol: messages of JSON behind a header with their length in bytes.

    Content-Length: 42\\r\\n
    \\r\\n
    {"jsonrpc": "2.0", ..}
"""

from __future__ import annotations

import json
import threading
from typing import Any, BinaryIO

# The error codes of JSON-RPC and of the protocol that are used here.
PARSE_ERROR, INVALID_REQUEST, NO_METHOD, INVALID_PARAMS, INTERNAL_ERROR = -32700, -32600, -32601, -32602, -32603
NOT_INITIALIZED, CANCELLED, CONTENT_MODIFIED, REQUEST_FAILED = -32002, -32800, -32801, -32803
# A message of more bytes is read over, and a header of more lines is none.
MOST_BYTES, MOST_LINES, MOST_LINE, MOST_DIGITS = 256 << 20, 64, 8192, 15
Message = dict[str, Any]


class BadMessage(Exception):
    """What came is no message; the next one can be read all the same."""


class Closed(Exception):
    """The other side has closed the stream."""


def _length(stream: BinaryIO) -> int:
    """The length that a header tells, in bytes; the header is read to its end."""
    length, count = None, 0
    while True:
        line = stream.readline(MOST_LINE)
        if not line:
            raise Closed
        count += 1
        if not line.strip():
            if length is not None:
                return length
            if count == 1:
                continue  # an empty line before a header
            raise BadMessage("a header has no Content-Length")
        name, _, value = line.partition(b":")
        if name.strip().lower() == b"content-length":
            if not value.strip().isdigit() or len(value.strip()) > MOST_DIGITS:
                raise BadMessage("Content-Length is no number, or one that nobody means")
            length = int(value)
        if count > MOST_LINES:
            raise BadMessage("a header doesn't end")


def _skip(stream: BinaryIO, length: int) -> None:
    while length:
        part = stream.read(min(length, 1 << 20))
        if not part:
            raise Closed
        length -= len(part)


def receive(stream: BinaryIO) -> tuple[Message, bytes]:
    """The next message, and its body. Raises BadMessage where it is none, and Closed at the end of the stream."""
    body = receive_body(stream)
    try:
        message = json.loads(body.decode("utf-8"))
    except (UnicodeDecodeError, ValueError, RecursionError) as fault:
        raise BadMessage(f"no JSON: {fault}") from fault
    if not isinstance(message, dict):
        raise BadMessage("a message is an object")
    return message, body


def receive_body(stream: BinaryIO) -> bytes:
    """The body of the next message. Raises BadMessage where its header is none, and Closed at the end of the stream."""
    length = _length(stream)
    if length > MOST_BYTES:
        _skip(stream, length)
        raise BadMessage(f"a message has {length} bytes, and {MOST_BYTES} are the most")
    body = stream.read(length)
    if len(body) < length:
        raise Closed
    return body


class Sender:
    """Writes messages to a stream, from any thread, each as a whole."""

    def __init__(self, stream: BinaryIO) -> None:
        self._stream, self._lock = stream, threading.Lock()

    def send(self, message: Message) -> None:
        """Writes a message. Raises Closed where nobody reads any more."""
        self.pass_on(json.dumps({"jsonrpc": "2.0", **message}, separators=(",", ":")).encode())

    def pass_on(self, body: bytes) -> None:
        """Writes the body of a message as it is. Raises Closed where nobody reads any more."""
        with self._lock:
            try:
                self._stream.write(b"Content-Length: %d\r\n\r\n%s" % (len(body), body))
                self._stream.flush()
            except (BrokenPipeError, ValueError) as fault:  # ValueError: the stream is closed here
                raise Closed from fault

    def answer(self, number: Any, result: Any) -> None:
        """Answers a request."""
        self.send({"id": number, "result": result})

    def fault(self, number: Any, code: int, told: str) -> None:
        """Answers a request that can't be done; number None where none could be read."""
        self.send({"id": number, "error": {"code": code, "message": told}})

    def notify(self, method: str, params: Any) -> None:
        """Tells what nobody asked for."""
        self.send({"method": method, "params": params})
