#!/usr/bin/env python3
"""Runs all proofs, tests and mutations from nothing (rt ci --anew) and prints what each crate cost, in
processor minutes.

    bench/gate.py [LOG]      at the top of the repository; the output of rt ci goes to LOG (gate.log)

Each check of the prover runs under a wrapper that records its processor time; the table has a row for each crate,
as docs/GATE.md shows it, and the last lines the sums and how long the whole took on how many processors.
"""

import importlib.machinery
import importlib.util
import os
import pathlib
import re
import shutil
import stat
import sys
import tempfile
import time
from contextlib import redirect_stdout
from collections.abc import Iterable
from typing import Any

WRAPPER = """#!/bin/sh
exec /usr/bin/time -a -o {log} -f "%U %S %e %C" {rattle} "$@"
"""


def rt() -> Any:
    """The command rt, as a module."""
    path = os.path.realpath(shutil.which("rt") or sys.exit("gate: no rt"))
    loader = importlib.machinery.SourceFileLoader("rt", path)
    spec = importlib.util.spec_from_loader("rt", loader)
    assert spec is not None
    module = importlib.util.module_from_spec(spec)
    loader.exec_module(module)
    return module


def column(words: str) -> str:
    """Whether a call of the prover proves a crate, proves its tests, or tries an edit."""
    if "_tests.o" in words:
        return "tests"
    return "proof" if " -o " in words or "--crate-checked" in words else "edits"


def table(lines: Iterable[str]) -> dict[str, dict[str, float]]:
    """Processor minutes by crate: its proof, its tests, its edits."""
    costs: dict[str, dict[str, float]] = {}
    for line in lines:
        user, system, _, words = line.split(" ", 3)
        name = re.search(r"--crate-name (\S+)", words)
        if name:
            row = costs.setdefault(name[1], {"proof": 0.0, "tests": 0.0, "edits": 0.0})
            row[column(words)] += (float(user) + float(system)) / 60
    return costs


def show(costs: dict[str, dict[str, float]]) -> None:
    """Prints the table, with sums."""
    print("| Crate | Proof | Tests | Edits |\n|---|---|---|---|")
    for name, row in costs.items():
        print(f"| {name} | {row['proof']:.1f} | {row['tests']:.1f} | {row['edits']:.1f} |")
    sums = {it: sum(row[it] for row in costs.values()) for it in ("proof", "tests", "edits")}
    print(f"| all | {sums['proof']:.1f} | {sums['tests']:.1f} | {sums['edits']:.1f} |")
    print(f"{sum(sums.values()):.0f} processor minutes")


def main() -> int:
    log = pathlib.Path(sys.argv[1] if len(sys.argv) > 1 else "gate.log")
    tool = rt()
    with tempfile.TemporaryDirectory(prefix="gate-") as room:
        calls = f"{room}/calls"
        wrapper = f"{room}/rattle"
        pathlib.Path(wrapper).write_text(WRAPPER.format(log=calls, rattle=tool.rtlib.RATTLE))
        os.chmod(wrapper, os.stat(wrapper).st_mode | stat.S_IXUSR)
        tool.rtlib.RATTLE = wrapper
        began = time.time()
        with log.open("w") as out, redirect_stdout(out):
            status: int = tool.main(["ci", "--anew"])
        took = time.time() - began
        lines = pathlib.Path(calls).read_text().splitlines()
    show(table(lines))
    print(f"status {status}, {took / 60:.0f} minutes on {tool.processors()} processors")
    return status


if __name__ == "__main__":
    sys.exit(main())
