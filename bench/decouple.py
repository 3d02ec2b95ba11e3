#!/usr/bin/env python3
"""Times `wsc decouple` beside `wsc exec` with one worker on the same images.

    bench/decouple.py [PROGRAM]    at the top of the repository, over the program that ./prove builds

For each program the table has its firings, the millions of them that `decouple` makes in a second by the
clock, and its time as a ratio of that of `exec`. Each time is the best of three runs, less a run that fires
nothing. In the last programs a store's data comes late, from a chain of so many operations, while others wait
behind it in the program's order: loads of other cells, loads of its own cell, or all of these and stores;
their firings rise with that number, and the speed is to stay. In the very last 48,000 loads of one wave do.
"""

import sys
from collections.abc import Callable

# Nothing is left beside the scripts.
sys.dont_write_bytecode = True
from runs import BUILT, ENDLESS, MOST, cells, each, head, image_of, job, row, run

PROGRAM = sys.argv[1] if len(sys.argv) > 1 else BUILT


def late(count: int, behind: Callable[[int], str], links: int | None = None) -> str:
    """A store into cell 0 whose data takes long, before so many of what is behind it, over and over."""
    chain = (f"d = d * 3 + {k};" for k in range(links or count))
    others = (behind(k) for k in range(count))
    return job("ids", each("i", ENDLESS, "d = i;", *chain, "a[0] = d;", *others), "print s;", a=64)


def other(k: int) -> str:
    """A load of another cell."""
    return f"s = s + a[{1 + k % 60}];"


def own(k: int) -> str:
    """A load of the cell."""
    return "s = s + a[0];"


def mixed(k: int) -> str:
    """A load of the cell, a store into another one, and a load of that."""
    return f"{own(k)} a[{1 + k % 15}] = {k}; s = s + a[{1 + k % 15}];"


def many(k: int) -> str:
    """Thirty loads of other cells."""
    return "s = s" + "".join(f" + a[{1 + (k * 30 + n) % 60}]" for n in range(30)) + ";"


JOBS = {
    "loop": job("is", each("i", ENDLESS, "s = s + i;")),
    "stores and loads": cells(ENDLESS),
    "10 loads behind a late store": late(10, other),
    "100 loads behind a late store": late(100, other),
    "1,000 loads behind a late store": late(1000, other),
    "1,000 loads of a late store's cell": late(1000, own),
    "300 stores and 600 loads behind a late store": late(300, mixed),
    "48,000 loads behind a late store": late(1600, many, 300),
}


def took(image: str, *words: str) -> float:
    """The seconds of a run without its start, each the least of three."""
    commands = ((PROGRAM, *words, "--budget", budget) for budget in ("0", MOST))
    none, whole = (min(run(command, image).clock for _ in range(3)) for command in commands)
    return whole - none


def main() -> None:
    """Prints the table."""
    head("Program", "Firings", "Millions a second", "Beside `exec`")
    for name, text in JOBS.items():
        image = image_of(PROGRAM, text)
        stats = ("--stats", "--budget", MOST)
        first = run((PROGRAM, "decouple", *stats), image)
        assert first.told == run((PROGRAM, "exec", *stats), image).told, "the answers differ"
        apart, beside = took(image, "decouple"), took(image, "exec", "--workers", "1")
        row(name, f"{first.firings:,}", f"{first.firings / apart / 1e6:.1f}", f"{apart / beside:.2f}")


if __name__ == "__main__":
    main()
