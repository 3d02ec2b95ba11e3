"""Serves a folder to a browser of this machine, as `python3 -m http.server` does."""

from __future__ import annotations

import functools
import pathlib
import threading
from http.server import SimpleHTTPRequestHandler, ThreadingHTTPServer
from typing import Any


class Quiet(SimpleHTTPRequestHandler):
    """Notes what is asked for, and prints nothing."""

    asked: list[str] = []

    def log_message(self, format: str, *args: Any) -> None:
        """Keeps the path."""
        self.asked.append(self.path)


class Served:
    """A folder at an address of this machine; to be used by `with`."""

    def __init__(self, folder: pathlib.Path):
        self.server = ThreadingHTTPServer(("127.0.0.1", 0), functools.partial(Quiet, directory=str(folder)))
        self.address = f"http://127.0.0.1:{self.server.server_port}/"

    def __enter__(self) -> str:
        threading.Thread(target=self.server.serve_forever, daemon=True).start()
        return self.address

    def __exit__(self, *_: Any) -> None:
        self.server.shutdown()
        self.server.server_close()
