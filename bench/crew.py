#!/usr/bin/env python3
"""Measures `wsc exec` with 1, 2, 4 and 8 workers beside `wsc decouple`, on the same images and in one run.

    bench/crew.py [--rounds N] [--jobs NAME,..] [PROGRAM [OLDER]]
        at the top of the repository, over the program that ./prove builds

For each job the first table has its firings, the millions of them that `decouple` makes in a second, and
how many times that speed `exec` has with each number of workers, by the clock; and how many bytes a run with
one worker had at most for each firing. The second has the speeds by processor time, of all threads together.
With OLDER, another build of wsc, its `decouple` and `exec` stand in tables of their own, beside the same
`decouple` of PROGRAM. All programs, commands and numbers of workers take turns, round after round over all
jobs, and each counts by its fastest run less the fastest that fires nothing; so other work on the machine
meets all of them alike. Short jobs run several times in a round. All answers have to be the same. Jobs named
`endless` end when the budget is exhausted, the others complete.

Where valgrind is there, a last table has the instructions that one worker takes for a firing: within a run,
between two budgets; and to the end, between two whole runs, with the search for outstanding tokens. Each count
gives the same.
"""

import argparse
import os
import random
import re
import shutil
import subprocess
import sys
from collections.abc import Callable, Iterator, Sequence
from typing import NamedTuple

# Nothing is left beside the scripts.
sys.dont_write_bytecode = True
from runs import BUILT, ENDLESS, MOST, Run, cells, each, head, image_of, job, row, run

WORKERS = (1, 2, 4, 8)
BUDGETS = (20_000, 220_000)
# A job runs in a round until so many have fired, but at most so often.
FIRINGS, RUNS = 400_000, 8
# Of fewer firings what the program has at its start would be most of the memory.
FIRINGS_FOR_BYTES = 300_000


def loop(turns: int) -> str:
    """A loop of one chain."""
    return job(("i", "s"), each("i", turns, "s = s + i * 3 ^ s >> 5;"), "print s;")


def numbered(count: int) -> list[str]:
    """So many names."""
    return [f"v{k}" for k in range(count)]


def wide(turns: int) -> str:
    """A loop of 24 short chains that need nothing of each other."""
    names = numbered(24)
    begun = (f"{v} = {7 * k + 3};" for k, v in enumerate(names))
    body = (
        f"{v} = ({v} * {2 * k + 3} + ({v} >> {3 + k % 13} ^ i)) * ({v} & 1023 | {k + 1}) + {v};"
        for k, v in enumerate(names)
    )
    return job(("i", *names), *begun, each("i", turns, *body), f"print {' ^ '.join(names)};")


def sums(turns: int) -> str:
    """A loop of 30 sums."""
    names = numbered(30)
    body = (f"{name} = {name} + (i ^ {3 * k + 1});" for k, name in enumerate(names))
    return job(("i", *names), each("i", turns, *body), f"print {' ^ '.join(names)};")


def tree(rng: random.Random, name: str, depth: int = 4) -> str:
    """A tree of operators over a variable and `i`."""
    if depth:
        return f"({tree(rng, name, depth - 1)} {rng.choice('+-*^')} {tree(rng, name, depth - 1)})"
    first, second, third = (rng.choice((name, "i")) for _ in range(3))
    return f"({first} {rng.choice('+-*^')} ({second} {rng.choice('+-*^')} {third}))"


def vast(turns: int) -> str:
    """A loop of 30 trees of 48 leaves."""
    rng, names = random.Random(1), numbered(30)
    body = (f"{name} = {tree(rng, name)};" for name in names)
    return job(("i", *names), each("i", turns, *body), f"print {' ^ '.join(names)};")


def links(name: str, count: int, more: int = 0) -> Iterator[str]:
    """So many statements of which each needs the one before."""
    for k in range(3, 3 + count):
        yield f"{name} = ({name} ^ {name} >> {k}) * {2 * k - 3 + more} + i;"


def chains(turns: int, names: str, length: int) -> str:
    """A loop of chains without arrays, one for each letter."""
    body = [
        line
        for k, name in enumerate(names)
        for line in (f"{name} = i * {2 * k + 3} + 3;", *links(name, length, 2 * k))
    ]
    return job(("i", "s", *names), each("i", turns, *body, f"s = s + ({' ^ '.join(names)});"), "print s;")


def chain(turns: int) -> str:
    """A loop of one long chain."""
    return chains(turns, "x", 12)


def four_chains(turns: int) -> str:
    """A loop of four chains."""
    return chains(turns, "xyzw", 8)


def mapped(rounds: int) -> str:
    """An array made of another, by a chain for each cell, in so many rounds."""
    body = each("i", 1000, "x = a[i] + r;", *links("x", 10), "b[i] = x;")
    return job(("r", "i", "x"), each("r", rounds, body), "print b[0] ^ b[999];", a=1000, b=1000)


def of_four(rounds: int, variables: str, *body: str) -> str:
    """A job of four arrays."""
    shown = "print a[7] ^ b[77] ^ c[777] ^ d[999];"
    return job(variables, each("r", rounds, *body), shown, a=1000, b=1000, c=1000, d=1000)


def update(array: str, index: str) -> str:
    """A statement that loads a cell and stores it."""
    return f"{array}[{index}] = {array}[{index}] * {2 * 'abcd'.index(array) + 3} + {index};"


def arrays(rounds: int) -> str:
    """Four arrays, each with a loop of its own."""
    loops = (each(index, 1000, update(array, index)) for array, index in zip("abcd", "ijkl"))
    return of_four(rounds, "rijkl", *loops)


def together(rounds: int) -> str:
    """Four arrays in one loop."""
    return of_four(rounds, "ri", each("i", 1000, *(update(array, "i") for array in "abcd")))


def matrix(size: int) -> str:
    """A product of two matrices."""
    count = size * size
    product = each("k", size, f"s = s + a[i * {size} + k] * b[k * {size} + j];")
    return job(
        "ijks",
        each("i", count, "a[i] = i * 3 + 1;", "b[i] = i * 5 ^ 7;"),
        each("i", size, each("j", size, "s = 0;", product, f"c[i * {size} + j] = s;")),
        "s = 0;",
        each("i", count, "s = s ^ c[i] + i;"),
        "print s;",
        **dict.fromkeys("abc", count),
    )


def sieve(size: int) -> str:
    """The primes below a number."""
    cross = f"j = i + i; while (j < {size}) {{ p[j] = 1; j = j + i; }}"
    body = f"if (p[i] == 0) {{ n = n + 1; {cross} }} i = i + 1;"
    return job("ijn", "i = 2;", f"while (i < {size}) {{ {body} }}", "print n;", p=size)


class Kind(NamedTuple):
    """A kind of job, its size where it is timed, and those of two whole runs to count instructions of."""

    make: Callable[[int], str]
    size: int
    counted: tuple[int, int] | None = None


KINDS = {
    "loop": Kind(loop, 140_000, (1_200, 13_000)),
    "endless-loop": Kind(loop, ENDLESS),
    "wide": Kind(wide, 8_000, (70, 720)),
    "endless-wide": Kind(wide, ENDLESS),
    "cells": Kind(cells, 80_000, (1_000, 11_000)),
    "endless-cells": Kind(cells, ENDLESS),
    "arrays": Kind(arrays, 30, (1, 4)),
    "together": Kind(together, 60, (1, 7)),
    "map": Kind(mapped, 30, (1, 4)),
    "matrix-24": Kind(matrix, 24, (8, 20)),
    "matrix-48": Kind(matrix, 48),
    "sieve": Kind(sieve, 40_000, (500, 4_000)),
    "chain": Kind(chain, 25_000, (240, 2_600)),
    "four-chains": Kind(four_chains, 12_000),
    "sums": Kind(sums, 12_000),
    "vast": Kind(vast, 1_200, (12, 130)),
}


# The generated job of number 8.
GENERATED = "gen-8"


class Call(NamedTuple):
    """A program and the words that it is given."""

    program: str
    words: tuple[str, ...]

    def run(self, image: str, budget: str) -> Run:
        """Runs an image."""
        return run((self.program, *self.words, "--stats", "--budget", budget), image)


def decouple(program: str) -> Call:
    """A run on one thread, with decoupled stores."""
    return Call(program, ("decouple",))


def crew(program: str, workers: int) -> Call:
    """A run with so many workers."""
    return Call(program, ("exec", "--workers", str(workers)))


class Times:
    """The least that each call took for a job, of a run and of one that fires nothing."""

    def __init__(self, image: str, calls: Sequence[Call]) -> None:
        self.image = image
        self.whole: dict[Call, Run] = {}
        self.none: dict[Call, Run] = {}
        first = calls[0].run(image, MOST)
        self.told, self.firings = first.told, first.firings
        self.runs = max(1, min(RUNS, FIRINGS // self.firings))

    def turn(self, call: Call) -> None:
        """Times a call in a round."""
        for _ in range(self.runs):
            for kept, budget in ((self.whole, MOST), (self.none, "0")):
                done = call.run(self.image, budget)
                assert budget == "0" or done.told == self.told, f"{call} answers {done.told}"
                kept[call] = done.least(kept.get(call, done))

    def speed(self, call: Call, by_clock: bool) -> float:
        """Millions of firings in a second, by the clock or of processor time."""
        whole, none = self.whole[call], self.none[call]
        took = whole.clock - none.clock if by_clock else whole.processor - none.processor
        return self.firings / max(took, 1e-6) / 1e6

    def size(self, call: Call) -> str:
        """Bytes a firing."""
        return f"{self.whole[call].peak / self.firings:.0f}" if self.firings >= FIRINGS_FOR_BYTES else ""


def timed(images: dict[str, str], calls: Sequence[Call], rounds: int) -> dict[str, Times]:
    """Lets all calls of all jobs take turns."""
    found = {name: Times(image, calls) for name, image in images.items()}
    for number in range(rounds):
        print(f"round {number + 1} of {rounds}", file=sys.stderr)
        for times in found.values():
            for call in calls:
                times.turn(call)
    return found


def table(found: dict[str, Times], program: str, base: Call, by_clock: bool) -> None:
    """Prints the speeds of a program, beside those of a call."""
    own = base.program == program
    calls = [*([] if own else [decouple(program)]), *(crew(program, workers) for workers in WORKERS)]
    names = ["Firings", "`decouple`, millions a second"] if own else ["`decouple`"]
    head("Job", *names, "1 worker", *map(str, WORKERS[1:]), *(["Bytes a firing"] if by_clock else []))
    for name, times in found.items():
        least = times.speed(base, by_clock)
        first = [f"{times.firings:,}", f"{least:.1f}"] if own else []
        ratios = (f"{times.speed(call, by_clock) / least:.2f}" for call in calls)
        row(name, *first, *ratios, *([times.size(crew(program, 1))] if by_clock else []))


def instructions(call: Call, image: str, budget: str) -> int:
    """What a call executes, by valgrind's count."""
    counter = ("valgrind", "--tool=cachegrind", "--cache-sim=no", f"--cachegrind-out-file={os.devnull}")
    command = (*counter, call.program, *call.words, "--budget", budget)
    done = subprocess.run(command, input=image, capture_output=True, text=True)
    counted = re.search(r"I +refs: +([\d,]+)", done.stderr)
    assert counted, done.stderr
    return int(counted[1].replace(",", ""))


def within(call: Call, image: str) -> float:
    """Instructions a firing between two budgets of one run."""
    few, many = (instructions(call, image, str(budget)) for budget in BUDGETS)
    return (many - few) / (BUDGETS[1] - BUDGETS[0])


def to_end(call: Call, images: Sequence[str]) -> float:
    """Instructions a firing between two runs that complete."""
    few, many = ((call.run(it, MOST).firings, instructions(call, it, MOST)) for it in images)
    return (many[1] - few[1]) / (many[0] - few[0])


def counts(program: str, kind: Kind) -> Iterator[str]:
    """Instructions a firing of one worker, within a run and to its end."""
    image, *others = (image_of(program, kind.make(size)) for size in (kind.size, *(kind.counted or ())))
    yield f"{within(crew(program, 1), image):.0f}"
    yield f"{to_end(crew(program, 1), others):.0f}"


def options() -> argparse.Namespace:
    """What the command line says."""
    names = [*KINDS, GENERATED]
    parser = argparse.ArgumentParser(description="Measures workers beside decouple.")
    parser.add_argument("--rounds", type=int, default=5)
    parser.add_argument("--jobs", type=lambda given: given.split(","), default=names)
    parser.add_argument("program", nargs="?", default=BUILT)
    parser.add_argument("older", nargs="?")
    given = parser.parse_args()
    if unknown := set(given.jobs).difference(names):
        parser.error(f"no job is named {', '.join(sorted(unknown))}; there are {', '.join(names)}")
    return given


def main() -> None:
    """Prints all tables."""
    given = options()
    programs = [given.program, *([given.older] if given.older else [])]
    kinds = KINDS | {GENERATED: Kind(lambda number: run((given.program, "gen", str(number)), "").told, 8)}
    images = {name: image_of(given.program, kinds[name].make(kinds[name].size)) for name in given.jobs}
    base = decouple(given.program)
    calls = [call for it in programs for call in (decouple(it), *(crew(it, workers) for workers in WORKERS))]
    found = timed(images, calls, given.rounds)
    for by_clock, measure in ((True, "By the clock"), (False, "By processor time")):
        for program, which in zip(programs, ("", ", the older program")):
            print(f"\n{measure}{which}:\n")
            table(found, program, base, by_clock)
    counted = [name for name in given.jobs if kinds[name].counted]
    if counted and shutil.which("valgrind"):
        print("\nInstructions a firing, one worker:\n")
        parts = ("within a run", "to its end", "within a run (older)", "to its end (older)")
        head("Job", *parts[: 2 * len(programs)])
        for name in counted:
            row(name, *(count for it in programs for count in counts(it, kinds[name])))


if __name__ == "__main__":
    main()
