"""wsc-serve by HTTP alone.

Who may ask, and for what; long, endless and binary texts; many requests at once; a program that crashes, and one that
isn't there; what is left when it ends.
"""

import http.client
import json
import os
import pathlib
import signal
import socket
import subprocess
import sys
import tempfile
import time
from concurrent.futures import ThreadPoolExecutor
from collections.abc import Iterator
from typing import Any

import pytest

from tests.asked import want
from tests.cases import each
from tests.places import LIBRARY, ROOT
from wavescalar.viewer.view import SCRIPTS

SUM = (ROOT / "examples" / "sum.job").read_bytes()
# The words of calls: each with --memory and --stats too.
PLAIN, RUN = ("call?word=plain&word=--turns&word=500000", "call?word=run&word=--workers&word=8&word=--budget&word=500000")
MORE = "&word=--memory&word=--stats"
ENDLESS = b"proc main() { var i; while (1) { i = i + 1; print i; } }\n"
# A program in place of wsc, which is ended by a signal, and one that takes for ever.
CRASH, SLOW = "#!/bin/sh\nkill -SEGV $$\n", "#!/bin/sh\nsleep 60\n"
# Seconds for an answer, and for an end, on a machine that has much else to do.
PATIENCE, END = 120, 30
PARTS = ("", "frame", "serve.css", "page.css", "edit.js", "served.js", "both.js", "serve.js", "hands.js", "remote.js", *SCRIPTS)
Headers = dict[str, str]


class Served:
    """A server, to be used by `with`; `folder` is where it may write meanwhile. Work may take so many seconds."""

    def __init__(self, program: str, seconds: int = 60):
        self.program = program
        self.room = tempfile.TemporaryDirectory(prefix="wsc-check-")
        self.folder = pathlib.Path(self.room.name)
        line = [sys.executable, str(LIBRARY / "wsc-serve"), "--port", "0", "--wsc", program, "--seconds", str(seconds)]
        self.child = subprocess.Popen(line, stdout=subprocess.PIPE, stderr=subprocess.PIPE, text=True,
                                      env={**os.environ, "TMPDIR": self.room.name})
        assert self.child.stdout and self.child.stderr
        self.out, self.errors = self.child.stdout, self.child.stderr
        _, _, host, self.token, _ = self.out.readline().split("/")
        self.port = int(host.split(":")[1])

    def __enter__(self) -> "Served":
        return self

    def __exit__(self, *_: Any) -> None:
        if self.child.poll() is None:
            self.child.send_signal(signal.SIGINT)
            self.child.wait(END)
        self.out.close()
        self.errors.close()
        self.room.cleanup()

    def ask(self, method: str, path: str, body: bytes | None = None,
            **headers: str | None) -> tuple[int, bytes, Headers]:
        """The status of an answer, what it is, and its headers. The token stands before a path that doesn't begin with
        `/` or `http:`; a header that is None isn't sent."""
        own: dict[str, str | None] = {"Host": f"127.0.0.1:{self.port}", "Origin": f"http://127.0.0.1:{self.port}",
                                      "Content-Type": "application/octet-stream"}
        if body is not None:
            own["Content-Length"] = str(len(body))
        own |= {name.replace("_", "-"): value for name, value in headers.items()}
        line = http.client.HTTPConnection("127.0.0.1", self.port, timeout=PATIENCE)
        given = path if path.startswith(("/", "http:")) else f"/{self.token}/{path}"
        line.putrequest(method, given, skip_host=True, skip_accept_encoding=True)
        for name, value in own.items():
            if value is not None:
                line.putheader(name, value)
        line.endheaders(body)
        got = line.getresponse()
        told = got.read()
        line.close()
        return got.status, told, dict(got.getheaders())

    def post(self, text: bytes, path: str = PLAIN, **headers: str | None) -> tuple[int, dict[str, Any]]:
        """The status of an answer to a text, and what it tells."""
        status, told, _ = self.ask("POST", path, text, **headers)
        return status, json.loads(told)


@pytest.fixture(scope="module")
def served(wsc: str) -> Iterator[Served]:
    """One server for all but those tests that end it."""
    with Served(wsc) as server:
        yield server


def test_pages(served: Served) -> None:
    """The page and its parts, and nothing else."""
    for path in PARTS:
        status, told, headers = served.ask("GET", path, Origin=None)
        policy = headers["Content-Security-Policy"]
        want(f"GET {path}", (status, bool(told)), (200, True))
        want(f"{path} in no frame of others", policy.endswith("'self'" if path == "frame" else "'none'"), True)
        want(f"{path} allows nobody", "Access-Control-Allow-Origin" in headers, False)
        want(f"{path} runs what is served alone", "unsafe" in policy or "script-src 'self';" not in policy, False)
        want(f"{path} has nothing for others", served.token.encode() in told, False)
    for path in ("../README.md", "..%2fREADME.md", f"/{served.token}//etc/passwd", "serve.py", "python/wsc-serve",
                 "serve.css?x", "%2e%2e/wsc", "frame/", "call", PLAIN, "page.html", "page/hand.js", "hand.js"):
        want(f"GET {path}", served.ask("GET", path)[0], 404)
    for method in ("PUT", "DELETE", "OPTIONS", "TRACE"):
        want(method, served.ask(method, PLAIN)[0], 501)
    want("HEAD", served.ask("HEAD", "")[:2], (200, b""))
    want("no such page", served.ask("POST", "calls?word=plain", SUM)[0], 404)
    for words in ("", "word=", "word=gen", "word=run;ls", "word=run&word=/etc/passwd", "word=run&word=sum.job", "word=run&word=--help",
                  "word=run&word=--budget", "word=run&word=--budget&word=x", "word=run&word=7", "word=--stats", "word=plain&word=../x",
                  "word=run&word=--budget&word=99999999", "word=multi", "word=stream", "word=sh&word=-c&word=ls", "words=run"):
        want(f"the call {words}", served.ask("POST", f"call?{words}", SUM)[0], 404)


def test_tokens(served: Served) -> None:
    """Without the token there is nothing, and each server has another one."""
    token = served.token
    for path in ("/", "/favicon.ico", "/serve.js", "/frame", f"/{token}", f"/{token}x/", f"/{token[:-1]}/", f"/x{token}/",
                 f"/{token.swapcase()}/", f"/?{token}/", f"/x/{token}/", "http://127.0.0.1/"):
        status, told, _ = served.ask("GET", path)
        want(f"GET {path.replace(token, 'TOKEN')}", (status, token.encode() in told), (404, False))
        want(f"it says why at {path.replace(token, 'TOKEN')}", b"token" in told, True)
    for path in (f"/{PLAIN}", "/call?word=compile", f"/{RUN}{MORE}", f"/{token[1:]}/{PLAIN}"):
        want("a text without the token", served.ask("POST", path, SUM)[0], 404)
    with Served(served.program) as other:
        want("another server's token", other.token != token and len(other.token) >= 16, True)
        status = other.ask("GET", f"/{token}/")[0]
        want("this token there", status, 404)


def test_strangers(served: Served) -> None:
    """Other names for this machine, and pages of others."""
    port = served.port
    for host in (None, "evil.example", f"evil.example:{port}", "127.0.0.1", f"127.0.0.1:{port + 1}",
                 f"127.0.0.2:{port}", f"127.0.0.1:{port}.evil.example", ""):
        want(f"GET with Host {host}", served.ask("GET", "", Host=host)[0], 421)
        want(f"POST with Host {host}", served.ask("POST", PLAIN, SUM, Host=host)[0], 421)
    for origin in (None, "null", "http://evil.example", f"https://127.0.0.1:{port}", "http://127.0.0.1",
                   f"http://127.0.0.1:{port}.evil.example", f"http://evil.example:{port}"):
        want(f"Origin {origin}", served.ask("POST", PLAIN, SUM, Origin=origin)[0], 403)
    for site in ("cross-site", "same-site", "none"):
        want(f"from {site}", served.ask("POST", PLAIN, SUM, Sec_Fetch_Site=site)[0], 403)
    for kind in (None, "text/plain", "application/x-www-form-urlencoded", "multipart/form-data"):
        want(f"a form's {kind}", served.ask("POST", PLAIN, SUM, Content_Type=kind)[0], 415)
    here = f"localhost:{port}"
    want("localhost", served.ask("POST", PLAIN, SUM, Host=here, Origin=f"http://{here}")[0], 200)
    other = socket.socket()
    want("another address", other.connect_ex(("127.0.0.2", port)) != 0, True)
    other.close()


def test_texts(served: Served) -> None:
    """What is answered to texts is what the program answers."""
    status, told = served.post(SUM)
    want("sum", (status, told), (200, {"status": 0, "out": "55\nhalt\n", "err": ""}))
    status, told = served.post(SUM, RUN + MORE)
    want("with options", (status, told["status"], told["out"]), (200, 0, "55\nhalt\nfirings 143\n"))
    status, told = served.post(b"proc main() {\n  print x;\n}\n")
    want("a refusal", (status, told["status"], told["out"]), (200, 2, "refused 2:9 unknown\n"))
    for text in (bytes(range(256)), b"\xff\xfe" * 100, b"\0" * 1000, b""):
        for path in (PLAIN, RUN, "call?word=compile"):
            status, told = served.post(text, path)
            want(f"binary {text[:4]!r}", (status, told["status"], told["out"][:8]), (200, 2, "refused "))
    for words in ("run", "exec", "trace", "replay"):
        status, told = served.post(b"\xe9", f"call?word={words}")
        want(f"{words} of no text", (status, told["out"][:8]), (200, "refused "))
    long = SUM + b"#" * ((8 << 20) - len(SUM))
    want("8 MiB", (served.post(long)[0], served.post(long)[1]["out"]), (200, "refused long\n"))
    want("a byte more", served.post(long + b"#")[0], 413)
    want("a huge text", served.post(b"#" * (12 << 20))[0], 413)
    want("no length", served.ask("POST", PLAIN, b"", Content_Length=None)[0], 411)
    want("a length that is none", served.ask("POST", PLAIN, b"", Content_Length="-1")[0], 411)
    want("a coded text", served.ask("POST", PLAIN, SUM, Transfer_Encoding="chunked")[0], 411)
    names = (ROOT / "examples" / "names.asm").read_bytes()
    right = subprocess.run([served.program, "exec", "--stats"], input=names, capture_output=True, check=True).stdout.decode()
    status, told = served.post(names, "call?word=exec&word=--stats")
    want("an assembly", (status, told["status"], told["out"]), (200, 0, right))
    trace = subprocess.run([served.program, "trace"], input=names, capture_output=True, check=True).stdout
    status, told = served.post(trace, "call?word=replay")
    want("a trace", (status, told["status"], "rest" in told["out"].splitlines()), (200, 0, True))


def test_runs(served: Served) -> None:
    """Runs are bounded by firings and turns."""
    for path in (PLAIN, RUN, RUN + MORE):
        status, told = served.post(ENDLESS, path)
        want("endless", (status, told["status"], told["out"].splitlines()[:3]), (200, 3, ["1", "2", "3"]))


def test_many(served: Served) -> None:
    """Twenty requests at once, and some that say nothing meanwhile."""
    silent = [socket.create_connection(("127.0.0.1", served.port)) for _ in range(4)]
    with ThreadPoolExecutor(20) as many:
        jobs = [SUM.replace(b"\n10\n", b"\n%d\n" % k) for k in range(20)]
        told = list(many.map(served.post, jobs))
    sums = [it["out"] if status == 200 else status for status, it in told]
    want("twenty at once", sums, [f"{k * (k + 1) // 2}\nhalt\n" for k in range(20)])
    for one in silent:
        one.close()


def children_of(pid: int) -> int:
    """How many processes one has started, which run."""
    many = 0
    for file in pathlib.Path("/proc").glob("[0-9]*/stat"):
        try:
            state, parent = file.read_text().rpartition(")")[2].split()[:2]
        except OSError:
            continue
        many += parent == str(pid) and state != "Z"
    return many


def test_gone(tmp_path: pathlib.Path) -> None:
    """Where the browser goes away, as it does when a text is edited anew, what works for it is ended."""
    file = tmp_path / "slow"
    file.write_text(SLOW)
    file.chmod(0o755)
    with Served(str(file)) as served:
        line = socket.create_connection(("127.0.0.1", served.port))
        here = f"127.0.0.1:{served.port}"
        line.sendall(f"POST /{served.token}/{PLAIN} HTTP/1.1\r\nHost: {here}\r\nOrigin: http://{here}\r\nContent-Type: "
                     f"application/octet-stream\r\nContent-Length: {len(SUM)}\r\n\r\n".encode() + SUM)
        end = time.time() + END
        while not children_of(served.child.pid) and time.time() < end:
            time.sleep(0.05)
        want("it works", children_of(served.child.pid), 1)
        line.close()
        while children_of(served.child.pid) and time.time() < end:
            time.sleep(0.05)
        want("it works no more", children_of(served.child.pid), 0)


def test_end(wsc: str) -> None:
    """Ctrl-C in the middle of a run ends all, and leaves nothing."""
    with Served(wsc) as served:
        silent = socket.create_connection(("127.0.0.1", served.port))
        with ThreadPoolExecutor(1) as one:
            one.submit(lambda: served.post(ENDLESS, "call?word=plain&word=--turns&word=9999999"))
            time.sleep(0.3)
            begun = time.time()
            served.child.send_signal(signal.SIGINT)
            want("its status", served.child.wait(END), 0)
            want("it waits for nobody", time.time() - begun < 9, True)
        silent.close()
        want("what it left", list(served.folder.iterdir()), [])
        want("what it complained of", served.errors.read().strip(), "")
        gone = socket.socket()
        want("its port", gone.connect_ex(("127.0.0.1", served.port)) != 0, True)
        gone.close()


@each("text, status, wanted, seconds", (
    ("crash", (CRASH, 422, "ended by signal 11", 60)),
    ("slow", (SLOW, 408, "takes longer than it may", 1)),
    ("none", ("", 422, "can't be run", 60)),
))
def test_faults(tmp_path: pathlib.Path, text: str, status: int, wanted: str, seconds: int) -> None:
    """A program that crashes, one that takes for ever, and one that isn't there."""
    file = tmp_path / "program"
    if text:
        file.write_text(text)
        file.chmod(0o755)
    with Served(str(file), seconds) as served:
        for path in (PLAIN, RUN, "call?word=compile"):
            found, told = served.post(SUM, path)
            want(path, (found, wanted in told["fault"]), (status, True))
