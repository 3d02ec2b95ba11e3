"""Compares what C programs print natively with what their images print on the machine, run in each way.

    python/run tests.c.compare --random 1 300        # programs of the generator, by their seeds
    python/run tests.c.compare FILE.c ..             # files; the words of FILE.in are their input

A program is compiled at each level of --levels, and run by `exec` with 1, 2 and 8 workers, by `decouple`, and by `grid`
where it takes no more than 100,000 firings. WSC and WSL name the programs.
"""

from __future__ import annotations

import argparse
import subprocess
import sys
import tempfile
import time
from collections import Counter
from collections.abc import Iterator, Sequence
from concurrent.futures import ProcessPoolExecutor
from dataclasses import dataclass
from pathlib import Path

from tests.c.generate import Program
from wavescalar import Fault, Image, decouple, grid, link, run
from wavescalar.c import Refusal, compile_c
from wavescalar.c.clang import Clang

BUDGET, GRID = 4_000_000, 100_000  # the most firings of `exec` and of `grid`
SECONDS = 20  # of processor time that a native run may take


@dataclass(frozen=True)
class Case:
    """A program: a file, or the seed of one that is made; its input, the levels, and in which ways it is run."""

    file: Path
    given: tuple[int, ...]
    levels: tuple[int, ...]
    workers: tuple[int, ...] = (2, 8)
    more: bool = True  # by `decouple` and by `grid` too
    seed: int | None = None


def native(source: Path, given: Sequence[int]) -> list[int]:
    """The words that a program prints that runs natively."""
    return [int(line) for line in native_text(source, given).split()]


def native_text(source: Path, given: Sequence[int]) -> str:
    """What a program prints that runs natively."""
    return Clang.found().native(source, "\n".join(map(str, given)), seconds=SECONDS)


def input_of(file: Path) -> tuple[int, ...]:
    """The words of the file beside it; none where there is no such file."""
    words = file.with_suffix(".in")
    return tuple(int(word) for word in words.read_text().split()) if words.exists() else ()


def _ways(image: Image, case: Case, firings: int) -> Iterator[tuple[str, list[int], str]]:
    """The name of each way to run an image but `exec` with one worker, what it prints so, and how it ends."""
    for workers in case.workers:
        done = run(image, case.given, workers=workers, budget=BUDGET)
        yield f"exec {workers}", list(done.words), done.ending
    if not case.more:
        return
    done = decouple(image, case.given, budget=BUDGET)
    yield "decouple", list(done.words), done.ending
    if firings <= GRID:
        done = grid(image, case.given)
        yield "grid", list(done.words), done.ending


def compared(case: Case, wanted: list[int], level: int, found: Counter[str]) -> str:
    """Compiles a program at a level and runs it in all ways; what happened, in a line."""
    try:
        began = time.perf_counter()
        image = link(compile_c(case.file, level, ["-w"]))
        took = time.perf_counter() - began
    except Refusal as refusal:
        found["refused"] += 1
        return str(refusal)
    first = run(image, case.given, budget=BUDGET)
    if first.ending == "budget":
        found["budget"] += 1
        return f"more than {BUDGET} firings"
    runs = [("exec 1", list(first.words), first.ending), *_ways(image, case, first.firings or 0)]
    found["programs"] += 1
    for way, words, ending in runs:
        found["runs"] += 1
        found[way] += 1
        if (words, ending) != (wanted, "halt"):
            found["differ"] += 1
            return f"DIFFERS by {way}: {words[:5]} {ending} in place of {wanted[:5]}"
    found["firings"] += first.firings or 0
    return (f"{len(runs)} ways agree, {len(wanted)} words, {first.firings} firings, {len(image.instructions)} "
            f"instructions, {took:.2f} s")


def tried(case: Case) -> tuple[list[str], Counter[str]]:
    """Makes a program where it isn't there, and compares it at its levels: a line for each, and counts."""
    found: Counter[str] = Counter()
    lines: list[str] = []
    with tempfile.TemporaryDirectory() as room:
        if case.seed is not None:
            file = Path(room) / case.file
            file.write_text(str(Program(case.seed)))
            case = Case(file, case.given, case.levels, case.workers, case.more)
        for level in case.levels:
            try:
                line = compared(case, native(case.file, case.given), level, found)
            except (Fault, subprocess.SubprocessError, AssertionError, LookupError, RecursionError) as fault:
                found["failed"] += 1
                line = f"FAILED: {type(fault).__name__}: {fault}"
            found[f"level {level}"] += 1
            lines.append(f"{case.file.name} -O{level}: {line}")
    return lines, found


def _cases(asked: argparse.Namespace) -> list[Case]:
    levels = tuple(map(int, asked.levels))
    workers, more = ((8,), False) if asked.few else ((2, 8), True)

    def of(place: int) -> tuple[int, ...]:
        return (levels[place % len(levels)],) if asked.turns else levels

    first, count = asked.random or (0, 0)
    seeds = range(first, first + count)
    return [*(Case(file, input_of(file), of(place), workers, more) for place, file in enumerate(asked.files)),
            *(Case(Path(f"random{seed}.c"), (seed, 3 * seed + 1, 1 << 63, 2**64 - 1 - seed, 77), of(seed), workers, more, seed)
              for seed in seeds)]


def main() -> int:
    """Compares what a line asks for; 1 where something differs, or nothing was compared."""
    parser = argparse.ArgumentParser(description=(__doc__ or "").splitlines()[0])
    parser.add_argument("files", nargs="*", type=Path)
    parser.add_argument("--random", nargs=2, type=int, metavar=("FIRST", "COUNT"))
    parser.add_argument("--levels", default="012", help="of optimization")
    parser.add_argument("--turns", action="store_true", help="a level for each, by turns, in place of all")
    parser.add_argument("--few", action="store_true", help="run by `exec` with 1 and 8 workers alone")
    parser.add_argument("--jobs", type=int, default=1, help="processes")
    parser.add_argument("--quiet", action="store_true", help="lines for what isn't equal alone")
    asked = parser.parse_args()
    found: Counter[str] = Counter()
    with ProcessPoolExecutor(asked.jobs) as pool:
        for lines, counts in pool.map(tried, _cases(asked)):
            found.update(counts)
            for line in lines:
                if not asked.quiet or "agree" not in line:
                    print(line, flush=True)
    print(", ".join(f"{name} {count}" for name, count in sorted(found.items())))
    return 1 if found["differ"] or found["failed"] or not found["programs"] else 0


if __name__ == "__main__":
    sys.exit(main())
