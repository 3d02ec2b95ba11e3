#!/usr/bin/env python3
"""Refuses each allocation of wsc and wss in turn, on a few calls, and compares what they then answer.

    tests/allocations.py [WSC [WSS]]     at the top of the repository, over the programs that ./prove builds

Counted are the calls of malloc and of realloc together, from 1 on; each number is refused once, until 32 in a
row change nothing. A call answers as it does with ample memory, or nothing, with status 7; what it has given to
port 1 by then is a front of what it gives otherwise. With that status wss has written the lines of the first words
of its answer, some or all. A small library for that, made by cc, stands before malloc. The gate doesn't run this.
"""

import os
import pathlib
import subprocess
import sys
import tempfile
from concurrent.futures import ThreadPoolExecutor

ROOT = pathlib.Path(__file__).resolve().parent.parent
NAMES = ("wsc", "wss")
WSC, WSS = (str(pathlib.Path(named or ROOT / "crates" / name / "out" / name))
            for name, named in zip(NAMES, [*sys.argv[1:3], "", ""]))
NO_MEMORY = 7
IN_A_ROW = 32

SHIM = """
#define _GNU_SOURCE
#include <dlfcn.h>
#include <stdatomic.h>
#include <stdlib.h>
static atomic_long calls;
static int is_refused(void) {
    static atomic_long refused = -1;
    if (refused < 0) refused = atol(getenv("REFUSED"));
    return atomic_fetch_add(&calls, 1) + 1 == refused;
}
void *malloc(size_t size) {
    static void *(*real)(size_t);
    if (!real) real = dlsym(RTLD_NEXT, "malloc");
    return is_refused() ? 0 : real(size);
}
void *realloc(void *old, size_t size) {
    static void *(*real)(void *, size_t);
    if (!real) real = dlsym(RTLD_NEXT, "realloc");
    return is_refused() ? 0 : real(old, size);
}
"""

SEVEN = "proc main() { print 7; }"
DOUBLES = "proc dbl(x) { return x * 2; } proc main() { var a, b, k; k = 5; a = dbl(k); b = dbl(a); print a + b + k; }"
PORTS = "proc main() { var x; take 1, 7; take 1, 8; give 2, x; print x; }"
GIVES = "proc main() { var x; give 2, x; print x; give 2, x; print x; give 4, x; print x; take 2, 7; }"
COUNTS = "proc main() { var i; while (i < 900) { print i; i = i + 1; } }"
STORES = """wavescalar 1
array a 2
wave 1
block 1
pad 0 1.0
1: advance -> 2.0 3.0
2: in <., 1, ?>.1 -> 3.1
3: steer -> 4.0 5.0 8.0 | 7.0 8.0
if 2 2 3
block 2
4: const 0 -> 6.0
5: const 5 -> 6.1
6: store 1 <1, 2, 4>.2
go 4
block 3
7: nop <1, 3, 4>.1
go 4
block 4
8: merge -> 9.0 10.0 15.0
9: const 0 -> 11.0
10: const 1 -> 12.0
11: load 1 <?, 4, 5>.2 -> 13.0
12: load 1 <4, 5, 6>.2 -> 14.0
13: out <5, 6, 7>.6
14: out <6, 7, 8>.7
15: halt <7, 8, .>.8
stop
end
%input
1
"""


def told(words: list[str], text: str = "") -> str:
    """What wsc answers with ample memory."""
    ran = subprocess.run([WSC, *words], input=text.encode(), capture_output=True, check=False)
    return ran.stdout.decode()


def calls() -> list[tuple[list[str], str]]:
    """The words, of which the first is the program, and the text of each call."""
    matrix = told(["gen", "2"])
    return [
        ([WSC, "run", "--workers", "2"], SEVEN),
        ([WSC, "run", "--workers", "2"], DOUBLES),
        ([WSC, "run", "--workers", "2"], PORTS),
        ([WSC, "run", "--workers", "2"], GIVES),
        ([WSC, "run", "--workers", "2"], matrix),
        ([WSC, "bench", "2", "--workers", "4"], ""),
        ([WSC, "multi", "--workers", "2"], f"{PORTS}\n%job\n{SEVEN}"),
        ([WSC, "plain"], matrix),
        ([WSC, "format"], matrix),
        ([WSC, "compile"], matrix),
        ([WSC, "check"], STORES.partition("%input")[0]),
        ([WSC, "list"], STORES.partition("%input")[0]),
        ([WSC, "exec", "--stats", "--workers", "2"], STORES),
        ([WSC, "decouple", "--stats"], STORES),
        ([WSC, "grid", "--stats"], STORES),
        ([WSC, "trace"], STORES),
        ([WSC, "replay"], told(["trace"], STORES)),
        ([WSS, "--memory", "--stats"], STORES),
        ([WSS], told(["compile"], COUNTS)),
        ([WSS, "--budget", "3000"], told(["compile"], COUNTS)),
    ]


Answer = tuple[int, bytes, bytes]


def called(shim: pathlib.Path, words: list[str], text: str, refused: int) -> Answer:
    """The status, the answer, and what port 1 took, where the allocation with this number is refused; 0 is none."""
    given = {**os.environ, "LD_PRELOAD": str(shim), "REFUSED": str(refused)}
    ran = subprocess.run(words, input=text.encode(), capture_output=True, env=given, check=False)
    return ran.returncode, ran.stdout, ran.stderr


def is_starved(program: str, found: Answer, whole: Answer) -> bool:
    """Whether this may be the answer where memory ran out."""
    status, out, port = found
    lines = out.endswith(b"\n") and whole[1].startswith(out) and program == WSS
    return status == NO_MEMORY and (not out or lines) and whole[2].startswith(port)


def tried(shim: pathlib.Path, words: list[str], text: str) -> tuple[int, int, int]:
    """How many allocations were refused, how often memory ran out then, and how often the answer was wrong."""
    whole = called(shim, words, text, 0)
    found: list[Answer] = []
    with ThreadPoolExecutor(os.cpu_count()) as pool:
        while any(answer != whole for answer in found[-IN_A_ROW:]) or not found:
            numbers = range(len(found) + 1, len(found) + 1 + 4 * IN_A_ROW)
            found += pool.map(lambda number: called(shim, words, text, number), numbers)
    starved = [it for it in found if is_starved(words[0], it, whole)]
    wrong = [it for it in found if it != whole and it not in starved]
    return len(found), len(starved), len(wrong)


def main() -> int:
    bad = 0
    with tempfile.TemporaryDirectory() as folder:
        source, shim = pathlib.Path(folder, "shim.c"), pathlib.Path(folder, "shim.so")
        source.write_text(SHIM)
        subprocess.run(["cc", "-O1", "-shared", "-fPIC", "-o", shim, source, "-ldl"], check=True)
        for words, text in calls():
            count, none, wrong = tried(shim, words, text)
            bad += wrong
            name = " ".join([pathlib.Path(words[0]).name, *words[1:]])
            print(f"{name}: {count} allocations refused, {none} times no memory, {wrong} wrong", flush=True)
    return 1 if bad else 0


if __name__ == "__main__":
    sys.exit(main())
