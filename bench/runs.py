"""What several benches share: texts of jobs, a run and what it takes, and rows of a table."""

import os
import pathlib
import subprocess
import tempfile
import time
from collections.abc import Iterable, Sequence
from typing import NamedTuple

ROOT = pathlib.Path(__file__).resolve().parent.parent
BUILT = str(ROOT / "crates" / "wsc" / "out" / "wsc")
# The largest budget of a run.
MOST = "4000000"
# So many turns that any budget is exhausted before.
ENDLESS = 1_000_000_000


class Run(NamedTuple):
    """What a run reports, its seconds by the clock and of processor, and the most bytes that it had."""

    told: str
    clock: float
    processor: float
    peak: int

    @property
    def firings(self) -> int:
        """How many instances fired, of a run with `--stats`."""
        return int(self.told.splitlines()[-1].removeprefix("firings "))

    def least(self, other: "Run") -> "Run":
        """The same answer with the least that one of two runs took."""
        clock, processor = min(self.clock, other.clock), min(self.processor, other.processor)
        return Run(self.told, clock, processor, min(self.peak, other.peak))


def run(command: Sequence[str], text: str) -> Run:
    """Runs a command on a text."""
    with tempfile.TemporaryFile("w+") as given, tempfile.TemporaryFile("w+") as taken:
        given.write(text)
        given.seek(0)
        before = time.monotonic()
        child = subprocess.Popen(command, stdin=given, stdout=taken)
        _, status, usage = os.wait4(child.pid, 0)
        clock = time.monotonic() - before
        child.returncode = os.waitstatus_to_exitcode(status)
        taken.seek(0)
        return Run(taken.read(), clock, usage.ru_utime + usage.ru_stime, usage.ru_maxrss * 1024)


def image_of(program: str, text: str) -> str:
    """The image of a job, with the job's input."""
    job, mark, words = text.partition("%input")
    return run((program, "compile"), job).told + mark + words


def job(names: Iterable[str], *body: str, **arrays: int) -> str:
    """The text of a job with these variables, statements and arrays."""
    held = "".join(f"array {name}[{size}];\n" for name, size in arrays.items())
    return f"{held}proc main() {{\n  var {', '.join(names)};\n  " + "\n  ".join(body) + "\n}\n"


def each(name: str, turns: int, *body: str) -> str:
    """A loop that counts a variable from 0 up."""
    return f"{name} = 0; while ({name} < {turns}) {{ {' '.join(body)} {name} = {name} + 1; }}"


def cells(turns: int) -> str:
    """A loop of a store and a load of an array."""
    body = each("i", turns, "a[i % 64] = i;", "s = s + a[(i * 7) % 64];")
    return job(("i", "s"), body, "print s;", a=64)


def row(*parts: str) -> None:
    """Prints a row of a table."""
    print("| " + " | ".join(parts) + " |", flush=True)


def head(*parts: str) -> None:
    """Prints the head of a table."""
    row(*parts)
    print("|" + "---|" * len(parts), flush=True)
