#!/usr/bin/env python3
"""Measures the kernels of this folder: instructions of a native run, firings, cycles, sizes.

    PYTHONPATH=python examples/c/measure.py [--level N] [--machines one-cluster,four-clusters] [--markdown] [KERNEL ..]

Without kernels it takes all. Native instructions are those of the file's own functions, as valgrind's callgrind counts them of what `clang -O2`
without vectors makes; input and output are left out. Without valgrind that column stays empty. WSC and WSL name the
programs. Machines are those of the timing model, whose events are given to `wsc replay`.
"""

from __future__ import annotations

import argparse
import re
import statistics
import subprocess
import sys
import tempfile
from dataclasses import dataclass
from pathlib import Path

from wavescalar import Image, grid, link, run
from wavescalar.c import compile_c
from wavescalar.c.clang import HEADERS
from wavescalar.programs import ROOT

HERE = Path(__file__).resolve().parent
FLAGS = ["-O2", "-fno-vectorize", "-fno-slp-vectorize", "-w", "-g", f"-I{HEADERS}"]
GRID = 100_000  # the most firings of `wsc grid`
HEAD = "kernel        native  firings  ratio  words  instructions  bytes  grid cycles"


@dataclass(frozen=True)
class Row:
    """What was measured of a kernel. native: instructions of a native run, None without valgrind. firings: of one worker.
    words: printed. clocked: cycles of the grid, where it takes the run. cycles: of each machine."""

    name: str
    native: int | None
    firings: int
    words: int
    instructions: int
    bytes: int
    clocked: int | None
    cycles: tuple[int, ...]

    @property
    def ratio(self) -> float | None:
        """Firings for each native instruction."""
        return self.firings / self.native if self.native else None

    def row(self) -> str:
        """A row of a table of Markdown: with machines their cycles, and native instructions for each cycle of the first
        one; else the sizes."""
        ratio = f"{self.ratio:.2f}" if self.ratio else ""
        cells: tuple[int | str | None, ...] = (self.native, self.firings, ratio, self.instructions, self.clocked)
        if self.cycles:
            each = f"{self.native / self.cycles[0]:.2f}" if self.native else ""
            cells = (self.firings, self.instructions, *self.cycles, each)
        return " | ".join([f"| `{self.name}`", *(f"{cell:,}" if isinstance(cell, int) else cell or "" for cell in cells)]) + " |"

    def __str__(self) -> str:
        ratio = f"{self.ratio:5.2f}" if self.ratio else ""
        cells = "".join(f"  {count:>14}" for count in self.cycles)
        return (f"{self.name:12} {self.native or '':>7}  {self.firings:7}  {ratio:5}  {self.words:5}  "
                f"{self.instructions:12}  {self.bytes:5}  {self.clocked or '':>11}{cells}")


def native_instructions(source: Path, given: list[int], room: Path) -> int | None:
    """How many instructions the file's functions take; None without valgrind."""
    program, counts = room / "native", room / "counts"
    subprocess.run(["clang", *FLAGS, str(source), "-lm", "-o", str(program)], check=True)
    try:
        subprocess.run(["valgrind", "--tool=callgrind", f"--callgrind-out-file={counts}", str(program)],
                       input="\n".join(map(str, given)), text=True, capture_output=True, check=True)
    except OSError:
        return None
    told = subprocess.run(["callgrind_annotate", str(counts)], capture_output=True, text=True, check=True).stdout
    found = re.findall(rf"^ *([\d,]+) .*/{source.name}:\w", told, re.MULTILINE)
    return sum(int(count.replace(",", "")) for count in found) or None


def cycles(image: Image, given: list[int], machine: str, room: Path) -> int:
    """How many cycles the timing model takes on a machine; its events are given to `wsc replay`."""
    file = room / "kernel.asm"
    file.write_text("".join([str(image), "%input\n", *(f"{word}\n" for word in given)]))
    done = subprocess.run([sys.executable, str(ROOT / "python" / "wsc-sim"), str(file), "--machine", machine, "--verify"],
                          capture_output=True, text=True, check=True)
    found = re.search(r"^run +halt; (\d+) cycles.*^verified ", done.stdout, re.MULTILINE | re.DOTALL)
    if not found:
        raise SystemExit(f"wsc-sim doesn't verify {file.name}: {done.stdout[-200:]}")
    return int(found[1])


def measured(source: Path, level: int, machines: list[str], room: Path) -> Row:
    """One kernel, at a level of optimization; with machines their cycles in place of the grid's."""
    words = source.with_suffix(".in")
    given = [int(word) for word in words.read_text().split()] if words.exists() else []
    image = link(compile_c(source, level, ["-w"]))
    done = run(image, given)
    firings = done.firings or 0
    clocked = grid(image, given).cycles if firings <= GRID and not machines else None
    return Row(source.stem, native_instructions(source, given, room), firings, len(done.words), len(image.instructions),
               len(str(image)), clocked, tuple(cycles(image, given, machine, room) for machine in machines))


def main() -> None:
    """Prints a row for each kernel, and the median ratio."""
    parser = argparse.ArgumentParser(description=(__doc__ or "").splitlines()[0])
    parser.add_argument("kernels", nargs="*", metavar="KERNEL")
    parser.add_argument("--level", type=int, default=1)
    parser.add_argument("--markdown", action="store_true", help="rows of a table")
    parser.add_argument("--machines", default="", help="names of the timing model's machines, with commas between")
    asked = parser.parse_args()
    machines = asked.machines.split(",") if asked.machines else []
    if not asked.markdown:
        print(HEAD + "".join(f"  {name:>14}" for name in machines))
    rows: list[Row] = []
    with tempfile.TemporaryDirectory() as place:
        for source in sorted(HERE.glob("*.c")):
            if not asked.kernels or source.stem in asked.kernels:
                rows.append(measured(source, asked.level, machines, Path(place)))
                print(rows[-1].row() if asked.markdown else rows[-1], flush=True)
    ratios = [row.ratio for row in rows if row.ratio]
    if ratios:
        print(f"median ratio {statistics.median(ratios):.2f}, greatest {max(ratios):.2f}")


if __name__ == "__main__":
    main()
