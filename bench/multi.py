#!/usr/bin/env python3
"""Times `wsc multi` beside `wsc run` on the same jobs.

    bench/multi.py [PROGRAM]       at the top of the repository, over the program that ./wsc builds

For each number of workers the table has the time of one job under `multi` as a ratio of that under `run`,
and that of four jobs as a ratio of the sum of their four runs. Each time is the best of five by the clock.
"""

import sys

# Nothing is left beside the scripts.
sys.dont_write_bytecode = True
from runs import BUILT, each, head, job, row, run

PROGRAM = sys.argv[1] if len(sys.argv) > 1 else BUILT
WORKERS = (1, 2, 4, 8)


def loop(step: int) -> str:
    """A loop that sums multiples."""
    return job("is", each("i", 100000, f"s = s + i * {step};"), "print s;")


JOBS = [loop(step) for step in (1, 3, 5, 7)]


def timed(text: str, *words: str) -> tuple[float, str]:
    """The seconds by the clock, the best of five, and what is printed."""
    runs = [run((PROGRAM, *words), text) for _ in range(5)]
    return min(it.clock for it in runs), runs[0].told


def main() -> None:
    """Prints the table."""
    head("Workers", "One job", "Four jobs")
    for workers in WORKERS:
        options = ("--workers", str(workers))
        alone = [timed(text, "run", *options) for text in JOBS]
        one = timed(JOBS[0], "multi", *options)
        four = timed("%job\n".join(JOBS), "multi", *options)
        texts = [f"thread {place + 1}\n{text}" for place, (_, text) in enumerate(alone)]
        assert one[1] == texts[0] and four[1] == "".join(texts), "the answers differ"
        whole = sum(took for took, _ in alone)
        row(str(workers), f"{one[0] / alone[0][0]:.2f}", f"{four[0] / whole:.2f}")


if __name__ == "__main__":
    main()
