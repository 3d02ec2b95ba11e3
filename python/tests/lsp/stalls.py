"""Measures the language server with a large text: python/run tests.lsp.stalls [BYTES]

An assembly of so many bytes (5,000,000) is opened, and changed 40 times at one place, as one types; behind each change hover,
completion, the colours of 60 lines, and a hover in a small job are asked for. Told are, by kind, the median and the greatest
time from the request to its answer, by the clock, and the greatest time of processor that the server's first process took for
it, which other programs of the machine don't change; and how long diagnostics and a definition in the large text took.
"""

from __future__ import annotations

import contextlib
import json
import pathlib
import statistics
import sys
import time
from collections import defaultdict
from functools import partial
from typing import Any, Callable

from tests.lsp.client import Client
from tests.lsp.test_features import BIG, large
from tests.lsp.test_protocol import JOB, SUM

CHANGES, LINE, LINES = 40, 3000, 60
ROUNDS = 1000.0  # milliseconds of a second


def used(number: int) -> float:
    """Milliseconds of processor that a process has used, in all its threads."""
    told = 0.0
    for task in pathlib.Path(f"/proc/{number}/task").iterdir():
        with contextlib.suppress(FileNotFoundError):  # a thread has ended meanwhile
            told += int((task / "schedstat").read_text().split()[0]) / 1e6
    return told


def main() -> int:
    """Measures, and prints a table."""
    size = int(sys.argv[1]) if sys.argv[1:] else 5000000
    text = large(size)
    client = Client()
    client.start()
    times: dict[str, list[float]] = defaultdict(list)
    work: dict[str, list[float]] = defaultdict(list)

    def timed(kind: str, act: Callable[[], Any]) -> Any:
        begun, before = time.perf_counter(), used(client.server.pid)
        made = act()
        times[kind].append((time.perf_counter() - begun) * ROUNDS)
        work[kind].append(used(client.server.pid) - before)
        return made

    client.open(JOB, SUM)
    client.marks(JOB)
    item = {"uri": BIG, "languageId": "", "version": 1, "text": text}
    message = {"jsonrpc": "2.0", "method": "textDocument/didOpen", "params": {"textDocument": item}}
    body = json.dumps(message).encode()  # before the clock: this is the editor's work

    def opened() -> None:
        client.body(body)
        client.at("hover", JOB, 9, 9)

    def changed(version: int) -> None:
        client.change(BIG, version, {"range": {"start": place, "end": place}, "text": "#"})
        client.at("hover", JOB, 9, 9)

    begun = time.perf_counter()
    timed("open, and a hover in a small text", opened)
    place = {"line": LINE, "character": 0}
    whole = {"start": place, "end": {"line": LINE + LINES, "character": 0}}
    for count in range(CHANGES):
        timed("change, and a hover in a small text", partial(changed, count + 2))
        timed("hover", lambda: client.at("hover", BIG, LINE + 1, 12))
        timed("completion", lambda: client.at("completion", BIG, LINE + 1, 12))
        timed("colours", lambda: client.ask("textDocument/semanticTokens/range", textDocument={"uri": BIG}, range=whole))
        time.sleep(0.1)
    marks = client.marks(BIG)
    while marks["version"] != CHANGES + 1:
        marks = client.marks(BIG)
    told = time.perf_counter() - begun
    print(f"{len(text)} bytes, {text.count(chr(10))} lines; milliseconds: median, greatest; greatest of processor")
    for kind, each in times.items():
        print(f"{kind:40}{statistics.median(each):8.1f}{max(each):8.1f}{max(work[kind]):8.1f}")
    print(f"diagnostics of the last version: {told:.1f} s behind the opening")
    begun = time.perf_counter()
    client.at("definition", BIG, LINE + 1, 1)
    print(f"a definition, the first: {time.perf_counter() - begun:.1f} s")
    timed("definition", lambda: client.at("definition", BIG, LINE + 1, 1))
    print(f"a definition, the next: {times['definition'][0]:.1f} ms")
    status = client.end()
    client.close()
    return status


if __name__ == "__main__":
    sys.exit(main())
