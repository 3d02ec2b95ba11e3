"""Compares what programs of csmith print natively with what their images print: csmith is a generator of C programs
without undefined behaviour that nobody here wrote (Debian: csmith).

    python/run tests.c.csmith 1 300 --jobs 2       # by their seeds
    python/run tests.c.csmith 17 1 --each          # every value that goes into the hash; --keep says where the file stays

The header runtime/csmith.h stands for csmith's runtime. A program is made by one of SHAPES, by its seed, compiled natively
by clang at -O1 and by wscc at level seed % 3, and run by `exec` with 1 and 8 workers.
"""

from __future__ import annotations

import argparse
import re
import subprocess
import sys
import tempfile
import time
from collections import Counter
from concurrent.futures import ProcessPoolExecutor
from dataclasses import dataclass
from pathlib import Path

from wavescalar import Fault, Refused, link, run
from wavescalar.c import Refusal, ToolFault, compile_c
from wavescalar.c.clang import DIFFERS, Clang

RUNTIME = Path(__file__).resolve().parent / "runtime"
BUDGET = 4_000_000  # firings, the most of `exec`
SECONDS = 2  # of processor time that a native run may take
LARGE = 60_000  # bytes; a larger program is left out, since inlining makes it larger still
COMMON = ["--no-argc", "--quiet", "--concise"]
SHAPES = (
    ["--max-funcs", "3", "--no-volatiles", "--no-volatile-pointers"],
    ["--max-funcs", "4", "--max-block-depth", "3", "--max-pointer-depth", "3"],
    ["--max-funcs", "2", "--max-expr-complexity", "6", "--builtins", "--disable-builtin-kinds", "x86"],
    ["--max-funcs", "5", "--max-block-size", "3", "--max-block-depth", "3", "--no-unions"],
    ["--max-funcs", "3", "--max-array-dim", "2", "--max-array-len-per-dim", "6", "--no-packed-struct"],
    ["--max-funcs", "3", "--float"],
    ["--max-funcs", "8", "--max-struct-fields", "14", "--max-union-fields", "8"],
    ["--max-funcs", "6", "--max-block-size", "6", "--max-pointer-depth", "4", "--inline-function"],
    ["--max-funcs", "4", "--float", "--max-array-dim", "4", "--max-expr-complexity", "14"],
)


@dataclass(frozen=True)
class Answer:
    """What became of a program: `same`, `differs`, `refused`, `budget`, `large`, `endless` or `failed`; and a line."""

    seed: int
    what: str
    line: str
    firings: int = 0


def made(seed: int, room: Path) -> Path | None:
    """The program of a seed; None where it is too large, or csmith gave up."""
    file = room / f"csmith{seed}.c"
    try:
        done = subprocess.run(["csmith", "--seed", str(seed), *COMMON, *SHAPES[seed % len(SHAPES)], "-o",
                               str(file.resolve())], capture_output=True, timeout=300, check=False, cwd=room)
    except subprocess.TimeoutExpired:
        return None
    return file if not done.returncode and file.stat().st_size <= LARGE else None


def tried(seed: int, level: int | None, each: bool, keep: Path | None) -> Answer:
    """Makes, compiles, runs and compares one."""
    with tempfile.TemporaryDirectory() as place:
        room = keep or Path(place)
        file = made(seed, room)
        if file is None:
            return Answer(seed, "large", "larger than what is tried")
        more = [f"-I{RUNTIME}", *(["-DEACH"] if each else [])]
        try:
            return _compared(seed, seed % 3 if level is None else level, file, more)
        except (Refusal, Refused) as refusal:
            return Answer(seed, "refused", str(refusal))
        except (Fault, subprocess.SubprocessError, AssertionError, LookupError, RecursionError, ValueError) as fault:
            return Answer(seed, "failed", f"{type(fault).__name__}: {fault}")


def _compared(seed: int, level: int, file: Path, more: list[str]) -> Answer:
    try:
        wanted = [int(line) for line in Clang.found().native(file, "", more, SECONDS).split()]
    except ToolFault as fault:
        if fault.status != DIFFERS:
            raise
        return Answer(seed, "endless", str(fault))
    began = time.perf_counter()
    image = link(compile_c(file, level, ["-w", *more]))
    took = time.perf_counter() - began
    firings = 0
    for workers in (1, 8):
        done = run(image, workers=workers, budget=BUDGET)
        if done.ending == "budget":
            return Answer(seed, "budget", f"more than {BUDGET} firings")
        if (list(done.words), done.ending) != (wanted, "halt"):
            at = next((k for k, (one, other) in enumerate(zip(done.words, wanted)) if one != other), len(done.words))
            return Answer(seed, "differs", f"-O{level}, {workers} workers: word {at}: {done.words[at:at + 1]} "
                                           f"{done.ending} in place of {wanted[at:at + 1]}")
        firings = done.firings or 0
    return Answer(seed, "same", f"-O{level}, {firings} firings, {len(image.instructions)} instructions, {took:.1f} s",
                  firings)


def reason(line: str) -> str:
    """A refusal's reason without names and places."""
    found = re.search(r"refused: ([^:]*)", line)
    return re.sub(r"^\w+ (would take \d+|is recursive|has)", r"NAME \1", found[1]) if found else line[:60]


def main() -> int:
    parser = argparse.ArgumentParser(description=(__doc__ or "").split("\n\n")[0])
    parser.add_argument("first", type=int)
    parser.add_argument("count", type=int)
    parser.add_argument("--jobs", type=int, default=1, help="processes")
    parser.add_argument("--level", type=int, help="of optimization, for all")
    parser.add_argument("--each", action="store_true", help="print every value")
    parser.add_argument("--keep", type=Path, help="a folder for the C files")
    parser.add_argument("--quiet", action="store_true", help="lines for what isn't the same alone")
    asked = parser.parse_args()
    found: Counter[str] = Counter()
    reasons: Counter[str] = Counter()
    with ProcessPoolExecutor(asked.jobs) as pool:
        waiting = [pool.submit(tried, seed, asked.level, asked.each, asked.keep)
                   for seed in range(asked.first, asked.first + asked.count)]
        for answer in (one.result() for one in waiting):
            found[answer.what] += 1
            found["firings"] += answer.firings
            if answer.what == "refused":
                reasons[reason(answer.line)] += 1
            if not asked.quiet or answer.what in ("differs", "failed"):
                print(f"{answer.seed}: {answer.what}: {answer.line}", flush=True)
    print(", ".join(f"{name} {count}" for name, count in sorted(found.items())))
    for text, count in reasons.most_common():
        print(f"  refused {count}: {text}")
    return 1 if found["differs"] or found["failed"] or not found["same"] else 0


if __name__ == "__main__":
    sys.exit(main())
