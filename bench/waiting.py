#!/usr/bin/env python3
"""Times `wsc run`, `wsc exec` and `wss` on waves in which many memory operations wait for one.

    bench/waiting.py [PROGRAM [WSS]]     at the top of the repository, over the programs that ./prove builds

Of each kind there are waves of 100 to 800 operations, and of some 100,000 firings for jobs, one wave for
images. In the last of these the requests are shuffled, and their numbers in the wave lie far apart. The
table has the processor time of one run, less that of a run with no firings, for each firing.
"""

import random
import sys
from collections.abc import Iterator

# Nothing is left beside the scripts.
sys.dont_write_bytecode = True
from runs import BUILT, MOST, each, head, job, row, run

PROGRAM = sys.argv[1] if len(sys.argv) > 1 else BUILT
WSS = sys.argv[2] if len(sys.argv) > 2 else BUILT.replace("wsc", "wss")
DELAY = 60


def late(count: int, turns: int, before: str, statement: str, behind: str) -> str:
    """A loop whose first operation waits for a long sum, with so many statements behind it."""
    slow = ["x = x * 3 + 1;"] * DELAY
    body = (statement.format(k=k % 8, j=k) for k in range(count))
    return job("isx", each("i", turns, "x = i;", *slow, before, *body, behind), a=8)


JOBS = {
    "prints behind a print": ("print x;", "print i + {j};", "print x;"),
    "stores behind a store": ("a[x % 8] = x;", "a[{k}] = i + {j};", "print a[0];"),
    "loads behind a store": ("a[x % 8] = x;", "s = s + a[{k}];", "print s;"),
    "loads behind a print": ("print x;", "s = s + a[{k}];", "print s;"),
}


def image(count: int, forwards: bool) -> Iterator[str]:
    """One wave: its first print comes last, and so many wait for it, which came in their order or
    backwards."""
    first = 2 + count
    yield "wavescalar 2\nwave 1\nblock 1\npad 0 1.0\n1: advance -> 2.0\n"
    for k in range(count):
        wait = f"{first + 1 + k}.0"
        then = f"{3 + k}.0" if k + 1 < count else f"{first}.0 {first + 1 + count}.0"
        yield f"{2 + k}: merge -> {then} {wait}\n" if forwards else f"{2 + k}: merge -> {wait} {then}\n"
    yield f"{first}: out <., 1, 2>.1\n"
    for k in range(count):
        yield f"{first + 1 + k}: out <{k + 1}, {k + 2}, {k + 3}>.{k + 2}\n"
    yield f"{first + 1 + count}: halt <{count + 1}, {count + 2}, .>.{count + 2}\nstop\nend\n"


def shuffled(count: int) -> Iterator[str]:
    """One wave: its first print comes last, and so many wait for it, which came in any order. Their numbers
    are one more apart than there are instructions, so a table of so many places would have them all in one."""
    first, step = 2 + count, 2 * count + 4
    order = random.Random(1).sample(range(count), count)
    yield "wavescalar 2\nwave 1\nblock 1\npad 0 1.0\n1: advance -> 2.0\n"
    for place, k in enumerate(order):
        then = f"{3 + place}.0" if place + 1 < count else f"{first}.0 {first + 1 + count}.0"
        yield f"{2 + place}: merge -> {then} {first + 1 + k}.0\n"
    yield f"{first}: out <., 1, {1 + step}>.1\n"
    for k in range(1, count + 1):
        number = 1 + k * step
        yield f"{first + k}: out <{number - step}, {number}, {number + step}>.{number}\n"
    last = 1 + (count + 1) * step
    yield f"{first + 1 + count}: halt <{last - step}, {last}, .>.{last}\nstop\nend\n"


def timed(name: str, text: str, *command: str) -> None:
    """Times a run, and prints its row."""
    stats = (*command, "--stats", "--budget")
    none, whole = ([run((*stats, budget), text) for _ in range(3)] for budget in ("0", MOST))
    seconds = min(it.processor for it in whole) - min(it.processor for it in none)
    firings = whole[0].firings
    row(name, str(firings), f"{seconds:.3f} s", f"{1e9 * seconds / firings:.0f} ns")


def main() -> None:
    """Prints the table."""
    head("Wave", "Firings", "Time", "A firing")
    for name, (before, statement, behind) in JOBS.items():
        for count in (100, 200, 400, 800):
            text = late(count, 300_000 // (5 * count + 200), before, statement, behind)
            timed(f"{count} {name}", text, PROGRAM, "run")
    for forwards in (False, True):
        for count in (10_000, 20_000, 40_000):
            name = "prints of an image, in their order" if forwards else "prints of an image, backwards"
            timed(f"{count} {name}", "".join(image(count, forwards)), PROGRAM, "exec")
    for count in (5_000, 10_000, 20_000):
        text = "".join(shuffled(count))
        timed(f"{count} prints of an image, shuffled, far apart, `exec`", text, PROGRAM, "exec")
        timed(f"{count} prints of an image, shuffled, far apart, `wss`", text, WSS)


if __name__ == "__main__":
    main()
