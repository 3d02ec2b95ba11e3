"""Serve a page for a class, on this computer only: edit a job, see what the program answers, and step through two orders
of its events side by side.

JOB is the text that the page begins with. What is drawn of a text the page computes itself; it asks this server for what wsc
answers, which is called in processes that may run for some seconds and write no file. The address that is printed has a
token, without which nothing is answered. Ctrl-C ends it.
"""

import functools
import hmac
import json
import os
import pathlib
import re
import secrets
import select
import signal
import socket
import sys
import tempfile
import threading
import time
import urllib.parse
from concurrent.futures import ThreadPoolExecutor
from http.server import BaseHTTPRequestHandler, HTTPServer
from typing import Any, Callable

from wavescalar.cli import Line, add_program, given, whole
from wavescalar.faults import Fault
from wavescalar.isa import EXITS, HEADS, KINDS, RESERVED
from wavescalar.programs import NONE_BUILT, ROOT, Child, heard, ready, refusal, start
from wavescalar.viewer.bounds import UNSTARTED, bounded
from wavescalar.viewer.scripts import bundled, modules
from wavescalar.viewer.view import SCRIPTS, written

HERE = pathlib.Path(__file__).resolve().parent
ADDRESS, PORT = "127.0.0.1", 8765
# The longest text of the page, in bytes, and the longest one of a call, as what it compiles to, with a trace; the longest time
# of a call, and of all that is made of a text for a part of the page, in seconds.
LONGEST, LARGEST, SECONDS = 64 * 1024, 8 << 20, 5
# The calls that are made for the page. No word names a file, which the wrapper wsc would read.
CALL = re.compile(r"(compile|plain|run|exec|trace|replay)( --(turns|budget|workers) \d{1,7}| --memory| --stats)*")
# Requests that are answered, and processes that work, at a time; requests beyond the last number are turned away.
ANSWERING, WORKING, WAITING = 32, 3, 128
# After so many seconds of silence a request is given up; so many bytes of a text that is refused are taken in.
IDLE, MOST_DRAINED = 10, 16 << 20
# So often, in seconds, it is looked whether a browser still waits for what is worked at.
LOOK = 0.1
# Bytes of chance in the token of the address.
CHANCE = 12
FIRST = ROOT / "examples" / "sum.job"
# What it begins with where no examples are, as where pip has installed the package.
SMALL = """proc main() {
  var i, s, n;
  read n;
  while (i < n) {
    i = i + 1;
    s = s + i;
  }
  print s;
}
%input
10
"""
EXAMPLES = [ROOT / "examples" / f"{name}.job" for name in
            ("sum", "fibonacci", "order", "calls", "matrix", "sorting", "past")]
EXAMPLES += [ROOT / "examples" / "viewer" / f"{name}.job" for name in ("squares", "early", "arrays", "turns")]
# What the editor colours: the words of jobs and of assemblies, as an alternative of a regular expression.
WORDS = "|".join(dict.fromkeys([*RESERVED, *HEADS, *EXITS, *KINDS]))
# What a page may do: use what is served here, and nothing that stands in the page itself or elsewhere.
POLICY = ("default-src 'none'; script-src 'self'; style-src 'self'; connect-src 'self'; frame-src 'self'; "
          "base-uri 'none'; form-action 'none'; frame-ancestors ")
HEADERS = {
    "X-Content-Type-Options": "nosniff", "Referrer-Policy": "no-referrer",
    "Cross-Origin-Resource-Policy": "same-origin", "Cross-Origin-Opener-Policy": "same-origin",
}
JSON = "application/json"
# What is answered: its status, its type, and its bytes.
Answer = tuple[int, str, bytes]


class Refused(Exception):
    """A request that isn't answered: its status, and why."""


def front(text: str, name: str, seconds: int) -> str:
    """The page, with the text that it begins with and the examples."""
    told = {"text": text, "name": name, "longest": LONGEST, "seconds": seconds,
            "examples": [[file.stem, file.read_text()] for file in EXAMPLES if file.exists()]}
    return (HERE / "serve.html").read_text().replace("@DATA@", written(told))


def first() -> tuple[str, str]:
    """The text that the page begins with where none is named, and its name."""
    return (FIRST.read_text() if FIRST.exists() else SMALL), FIRST.name


def frame() -> str:
    """A page of the viewer without data, which that page fills."""
    made = (HERE / "page.html").read_text()
    scripts = "\n".join(f'<script src="{name}"></script>' for name in SCRIPTS)
    for mark, part in (("@TITLE@", "order"), ("@STYLE@", '<link rel="stylesheet" href="page.css">'),
                       ("@SCRIPTS@", scripts), ("@DATA@", "")):
        made = made.replace(mark, part)
    return made


def files(text: str, name: str, seconds: int) -> dict[str, tuple[str, bytes]]:
    """All that a browser may ask for, by what stands behind the token: types and bytes. It is read once, and no path
    of a request is ever opened."""
    kinds = {".css": "text/css", ".js": "text/javascript"}
    plain = ["serve.css", "page.css", "edit.js", "served.js", "both.js", "serve.js", *SCRIPTS]
    made = {file: (kinds[pathlib.Path(file).suffix], (HERE / file).read_text().replace("@WORDS@", WORDS)) for file in plain}
    made |= {"hands.js": (kinds[".js"], modules()["hands.js"]), "remote.js": (kinds[".js"], bundled(modules(), "remote.js"))}
    made |= {"": ("text/html", front(text, name, seconds)), "frame": ("text/html", frame())}
    return {path: (kind, it.encode(errors="replace")) for path, (kind, it) in made.items()}


class Workers:
    """The calls of the program for requests, in a folder of their own; each may take so many seconds."""

    def __init__(self, program: str, folder: str, seconds: int):
        self.program, self.folder, self.seconds = program, folder, seconds
        self.room = threading.Semaphore(WORKING)
        self.children: set[Child] = set()
        self.lock, self.ending = threading.Lock(), False

    def work(self, words: list[str], text: bytes, is_gone: Callable[[], bool]) -> bytes:
        """What the program answers to a text, as JSON; it is ended where nobody waits for it any more."""
        with self.room:
            if is_gone():
                raise ConnectionError
            child = self.begun(words, text)
            try:
                told, errors = self.told_by(child, is_gone)
            finally:
                with self.lock:
                    self.children.discard(child)
        status, out, err = child.returncode, told.decode(errors="replace"), errors.decode(errors="replace")
        if status in UNSTARTED:
            raise Refused(422, f"{self.program} can't be run")
        if status < 0 or status == NONE_BUILT:
            raise Refused(422, str(refusal(words[0], status, out, err)))
        return json.dumps({"status": status, "out": out, "err": err}).encode()

    def told_by(self, child: Child, is_gone: Callable[[], bool]) -> tuple[bytes, bytes]:
        """What a process writes to its two outputs."""
        last = time.monotonic() + self.seconds
        while True:
            if told := heard(child, LOOK):
                return told
            late, gone = time.monotonic() > last, is_gone()
            if late or gone:
                self.end(child)
                child.communicate()
            if gone:
                raise ConnectionError
            if late:
                raise Refused(408, f"This takes longer than it may ({self.seconds} s), and was ended.")

    def begun(self, words: list[str], text: bytes) -> Child:
        """A call that begins, a group of its own. It reads the text from a file without a name, since a pipe has to be filled
        while its output is read."""
        with tempfile.TemporaryFile(dir=self.folder) as source:
            source.write(text)
            source.seek(0)
            with self.lock:
                if self.ending:
                    raise Refused(503, "The server ends.")
                child = start(bounded([self.program, *words]), source, folder=self.folder, is_group=True)
                self.children.add(child)
        return child

    def end(self, child: Child) -> None:
        """Ends a process that wasn't waited for, with those that it has started: they are its group."""
        if child.returncode is None:
            os.killpg(child.pid, signal.SIGKILL)

    def end_all(self) -> None:
        """Ends all that work, and lets no other begin."""
        with self.lock:
            self.ending = True
            for child in self.children:
                self.end(child)


class Server(HTTPServer):
    """Answers requests in a few threads."""

    request_queue_size = WAITING

    def __init__(self, port: int, pages: dict[str, tuple[str, bytes]], workers: Workers):
        self.pages, self.workers, self.lock = pages, workers, threading.Lock()
        self.open: set[socket.socket] = set()
        self.threads = ThreadPoolExecutor(ANSWERING)
        self.token = secrets.token_urlsafe(CHANCE)
        super().__init__((ADDRESS, port), Handler)
        self.hosts = {f"{name}:{self.server_port}" for name in (ADDRESS, "localhost")}

    def process_request(self, request: Any, client_address: Any) -> None:
        """Hands a request to a thread; one too many is closed at once."""
        with self.lock:
            if len(self.open) >= WAITING:
                self.shutdown_request(request)
                return
            self.open.add(request)
        self.threads.submit(self.answer, request, client_address)

    def answer(self, request: Any, client_address: Any) -> None:
        """Answers a request, unless the browser went away, or says nothing for too long."""
        try:
            self.finish_request(request, client_address)
        except OSError:
            pass
        finally:
            with self.lock:
                self.open.discard(request)
            self.shutdown_request(request)

    def end(self) -> None:
        """Ends what works, and whoever is waited for."""
        self.workers.end_all()
        with self.lock:
            for request in self.open:
                try:
                    request.shutdown(socket.SHUT_RD)
                except OSError:
                    pass
        self.threads.shutdown(wait=True, cancel_futures=True)


class Handler(BaseHTTPRequestHandler):
    """One request. It has to come from the page itself: Host is ours, the path begins with the token, and where work is
    asked for, Origin is ours too."""

    server: Server
    timeout, taken = IDLE, False
    server_version, sys_version = "wsc-serve", ""

    def log_message(self, format: str, *args: Any) -> None:
        """Says nothing: the token stands in each request."""

    def tell(self, status: int, kind: str, told: bytes, kept: bool = False) -> None:
        """Sends an answer; scripts and styles may be kept, since the token changes with the server."""
        own = {"Content-Type": f"{kind}; charset=utf-8", "Content-Length": str(len(told)),
               "Content-Security-Policy": POLICY + ("'self'" if self.path.endswith("/frame") else "'none'"),
               "Cache-Control": "private, max-age=86400, immutable" if kept else "no-store"}
        self.send_response(status)
        for name, value in (HEADERS | own).items():
            self.send_header(name, value)
        self.end_headers()
        if self.command != "HEAD":
            self.wfile.write(told)

    def answered(self, act: Callable[[str], Answer]) -> None:
        """Does what a request asks for, or says why not."""
        try:
            self.check_host()
            status, kind, told = act(self.behind_token())
            self.tell(status, kind, told, kind in ("text/css", "text/javascript"))
        except Refused as why:
            status, said = why.args
            self.drain()
            self.tell(status, JSON, json.dumps({"fault": said}).encode())

    def drain(self) -> None:
        """Takes in what is left of a text that is refused, so that the browser comes to read why."""
        told = self.headers.get("Content-Length", "")
        if self.command == "POST" and not self.taken and told.isascii() and told.isdigit():
            self.rfile.read(min(int(told), MOST_DRAINED))

    def check_host(self) -> None:
        """A name that leads to this machine by another's doing isn't ours: so no page of a stranger reads this one."""
        told = self.headers.get_all("Host") or []
        if len(told) != 1 or told[0] not in self.server.hosts:
            raise Refused(421, "This address isn't served here.")

    def behind_token(self) -> str:
        """What stands in the path behind the token, which others on this machine don't know."""
        told, slash, rest = self.path.removeprefix("/").partition("/")
        if not slash or not hmac.compare_digest(told.encode(errors="replace"), self.server.token.encode()):
            raise Refused(404, "The address lacks its token: take the whole of it, as wsc-serve printed it.")
        return rest

    def check_origin(self) -> None:
        """Only the page itself may ask for work."""
        hosts = {f"http://{host}" for host in self.server.hosts}
        site = self.headers.get("Sec-Fetch-Site", "same-origin")
        if self.headers.get("Origin") not in hosts or site != "same-origin":
            raise Refused(403, "Only the page itself may ask for this.")
        if self.headers.get("Content-Type") != "application/octet-stream":
            raise Refused(415, "A text comes as application/octet-stream.")

    def do_GET(self) -> None:
        self.answered(self.file)

    do_HEAD = do_GET

    def file(self, path: str) -> Answer:
        """A part of the page."""
        found = self.server.pages.get(path)
        if found is None:
            raise Refused(404, "There is no such page.")
        return 200, *found

    def do_POST(self) -> None:
        self.answered(self.worked)

    def worked(self, path: str) -> Answer:
        """What the program answers to a text."""
        self.check_origin()
        path, _, asked = path.partition("?")
        words = urllib.parse.parse_qs(asked).get("word", [])
        if path != "call" or not CALL.fullmatch(" ".join(words)):
            raise Refused(404, "There is no such page, or no such call.")
        return 200, JSON, self.server.workers.work(words, self.body(), self.is_gone)

    def is_gone(self) -> bool:
        """Whether the browser waits no more, as where a newer text is asked about."""
        heard = select.select([self.connection], [], [], 0)[0]
        return bool(heard) and not self.connection.recv(1, socket.MSG_PEEK)

    def body(self) -> bytes:
        """The text of a request."""
        told = self.headers.get("Content-Length", "")
        if not (told.isascii() and told.isdigit()) or "Transfer-Encoding" in self.headers:
            raise Refused(411, "The text's length has to be told.")
        if int(told) > LARGEST:
            raise Refused(413, f"The text has more than {LARGEST >> 20} MiB.")
        self.taken = True
        return self.rfile.read(int(told))


def bound_to(port: int, pages: dict[str, tuple[str, bytes]], workers: Workers) -> Server:
    """A server at a port, from 0 for any that is free."""
    try:
        return Server(port, pages, workers)
    except OSError as fault:
        raise Fault(f"port {port}: {fault.strerror}; --port 0 takes any that is free") from fault


def serve(port: int, pages: dict[str, tuple[str, bytes]], workers: Workers) -> None:
    """Serves until it is interrupted."""
    with bound_to(port, pages, workers) as server:
        print(f"http://{ADDRESS}:{server.server_port}/{server.token}/  (Ctrl-C ends it)", flush=True)
        try:
            server.serve_forever()
        except KeyboardInterrupt:
            print(file=sys.stderr)
        finally:
            server.end()


def interrupted(*_: Any) -> None:
    """Ends the server as Ctrl-C does."""
    raise KeyboardInterrupt


def main() -> int:
    ask = Line(__doc__)
    ask.add_argument("job", metavar="JOB", nargs="?", help="the text that the page begins with (examples/sum.job)")
    ask.add_argument("--port", metavar="N", type=int, default=PORT, help=f"the port ({PORT}); 0: any free port")
    ask.add_argument("--seconds", metavar="N", type=int, default=SECONDS,
                     help=f"end the processing of a text after this time ({SECONDS})")
    add_program(ask)
    line = ask.parse_args()
    if not 0 <= line.port <= 65535:
        ask.error("a port is a number from 0 to 65535")
    text, name = (given(line.job), pathlib.Path(line.job).name) if line.job else first()
    if len(text.encode(errors="surrogateescape")) > LONGEST:
        ask.error(f"{name} has more than {LONGEST // 1024} KiB")
    ready(line.wsc)
    for kind in (signal.SIGINT, signal.SIGTERM):
        signal.signal(kind, interrupted)
    with tempfile.TemporaryDirectory(prefix="wsc-serve-") as folder:
        program = str(pathlib.Path(line.wsc).resolve()) if "/" in line.wsc else line.wsc
        serve(line.port, files(text, name, line.seconds), Workers(program, folder, line.seconds))
    return 0


tool = functools.partial(whole, main)

if __name__ == "__main__":
    sys.exit(tool())
