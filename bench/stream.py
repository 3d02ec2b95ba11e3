#!/usr/bin/env python3
"""Measures `wss`, whose runs have any length, beside `wsc exec` with one worker, `decouple` and `plain`.

    bench/stream.py [--rounds N] [--most FIRINGS] [WSC [WSS]]
        at the top of the repository, over the programs that ./prove builds

The first table has for five programs of bench/crew.py, of up to four million firings, the millions of them
that `wss` makes in a second of processor time, less a run that fires nothing; how many times the speed of
`exec` and of `decouple` that is; and how many times as long as `plain` it takes, which runs the source.
All take turns, and each counts by its fastest run. The second has runs whose budget is exhausted, from a
million firings up to FIRINGS (by default 100,000,000), with the most memory that they had: of a loop, of
four arrays, and of a loop that prints a word in each turn. The third, if valgrind is installed, has the
instructions of a firing, of which each count gives the same.
"""

import argparse
import os
import pathlib
import shutil
import subprocess
import sys
import tempfile
import time

# Nothing is left beside the scripts.
sys.dont_write_bytecode = True
from crew import GENERATED, KINDS, Call, Times, crew, decouple, timed, within
from runs import BUILT, ENDLESS, ROOT, each, head, image_of, job, row, run

STREAM = str(ROOT / "crates" / "wss" / "out" / "wss")
JOBS = ("loop", "wide", "cells", "arrays")
PRINTS = job("i", each("i", ENDLESS, "print i;"))


def plain_seconds(program: str, text: str, rounds: int) -> float:
    """The least processor time of the sequential run of a job."""
    return min(run((program, "plain"), text).processor for _ in range(rounds))


def compared(program: str, stream: Call, texts: dict[str, str], rounds: int) -> None:
    """Prints the first table."""
    images = {name: image_of(program, text) for name, text in texts.items()}
    beside = (crew(program, 1), decouple(program))
    found: dict[str, Times] = timed(images, (stream, *beside), rounds)
    head("Job", "Firings", "Millions a second", "Speed beside `exec`", "Beside `decouple`", "Time beside `plain`")
    for name, times in found.items():
        speed = times.speed(stream, False)
        ratios = (f"{speed / times.speed(it, False):.2f}" for it in beside)
        took = times.firings / speed / 1e6
        row(name, f"{times.firings:,}", f"{speed:.1f}", *ratios,
            f"{took / max(plain_seconds(program, texts[name], rounds), 1e-3):.1f}")


def long_runs(program: str, stream: Call, most: int) -> None:
    """Prints the second table."""
    head("Job", "Firings", "Time", "Millions a second", "Memory")
    kinds = {"loop": KINDS["endless-loop"], "four arrays": KINDS["together"]}
    texts = {name: kind.make(ENDLESS) for name, kind in kinds.items()} | {"prints": PRINTS}
    for name, text in texts.items():
        image, budget = image_of(program, text), 10**6
        while budget <= most:
            seconds, peak = measured(stream, image, budget)
            row(name, f"{budget:,}", f"{seconds:.2f} s", f"{budget / seconds / 1e6:.1f}", f"{peak / 1000:.1f} MB")
            budget *= 10


def measured(stream: Call, image: str, budget: int) -> tuple[float, int]:
    """The seconds of processor time and the most kilobytes of a run, whose words aren't kept. What the system
    reports of a process counts what it was before it became this program, so that is looked up while it runs."""
    with tempfile.TemporaryFile("w+") as given:
        given.write(image)
        given.seek(0)
        line = (stream.program, *stream.words, "--budget", str(budget))
        child = subprocess.Popen(line, stdin=given, stdout=subprocess.DEVNULL)
        peak = 0
        while True:
            ended, status, usage = os.wait4(child.pid, os.WNOHANG)
            if ended:
                child.returncode = os.waitstatus_to_exitcode(status)
                return usage.ru_utime + usage.ru_stime, peak
            peak = max(peak, most_of(child.pid))
            time.sleep(0.005)


def most_of(process: int) -> int:
    """The most kilobytes that a process had, 0 where it is none any more."""
    try:
        lines = pathlib.Path(f"/proc/{process}/status").read_text().splitlines()
    except OSError:
        return 0
    return next((int(line.split()[1]) for line in lines if line.startswith("VmHWM:")), 0)


def main() -> None:
    """Prints all tables."""
    parser = argparse.ArgumentParser(description="Measures wss beside exec, decouple and plain.")
    parser.add_argument("--rounds", type=int, default=5)
    parser.add_argument("--most", type=int, default=10**8, metavar="FIRINGS")
    parser.add_argument("program", nargs="?", default=BUILT)
    parser.add_argument("stream", nargs="?", default=STREAM)
    given = parser.parse_args()
    stream = Call(given.stream, ())
    texts = {name: KINDS[name].make(KINDS[name].size) for name in JOBS}
    texts[GENERATED] = subprocess.run((given.program, "gen", "8"), capture_output=True, text=True, check=True).stdout
    compared(given.program, stream, texts, given.rounds)
    print()
    long_runs(given.program, stream, given.most)
    if shutil.which("valgrind"):
        print()
        head("Job", "`wss`, instructions a firing", "`exec` with one worker", "`decouple`")
        calls = (stream, crew(given.program, 1), decouple(given.program))
        for name in JOBS:
            image = image_of(given.program, texts[name])
            row(name, *(f"{within(it, image):.0f}" for it in calls))


if __name__ == "__main__":
    main()
