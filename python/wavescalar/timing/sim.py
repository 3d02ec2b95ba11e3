"""Simulate a program on a timing model of a WaveScalar machine: how many cycles it takes, and what causes them.

FILE is a job, which wsc compiles, or an assembly; without FILE, standard input is read. Several files, jobs that lines
%job separate, and --threads make threads of one machine. The machine is one of those listed at --machine, or a file in
TOML or JSON; each of its parameters is an option too. Nothing proves the cycles. What the run prints can be checked:
with --verify the proved `wsc replay` repeats the run's events.

    wsc-sim examples/matrix.job --machine sixteen-clusters --waves 8 --verify
"""

from __future__ import annotations

import argparse
import csv
import functools
import pathlib
import sys
from collections.abc import Iterable
from typing import Any

from wavescalar.cli import Line, add_program, given, whole
from wavescalar.faults import Fault
from wavescalar.programs import assembly_of
from wavescalar.timing.figures import Figures
from wavescalar.timing.model import BUDGET, run_of
from wavescalar.timing.page import page
from wavescalar.timing.parameters import PARAMETERS, Values, machine_of, option_of, ready, table as table_of
from wavescalar.timing.pictures import picture
from wavescalar.timing.places import told as places_of
from wavescalar.timing.report import as_json, brief, table, text
from wavescalar.timing.verify import answer_of, has_trace, trace_of, verify
from wavescalar.versions import of_result


def add_parameters(ask: argparse.ArgumentParser) -> None:
    """An option for each parameter."""
    group = ask.add_argument_group("parameters of the machine")
    for name, (value, _, unit, what) in PARAMETERS.items():
        usual = str(value).lower() or "none"
        group.add_argument(option_of(name), dest=name, metavar="VALUE",
                           help=f"{what} ({usual}{' ' + unit if unit else ''})")


def parameters_of(line: argparse.Namespace) -> Values:
    """Those that the line gives."""
    return {name: value for name, value in vars(line).items() if name in PARAMETERS and value is not None}


def ask_for() -> argparse.ArgumentParser:
    """The line of the program."""
    ask = Line(__doc__)
    ask.add_argument("files", metavar="FILE", nargs="*", help="a job or an assembly")
    ask.add_argument("--threads", metavar="N", type=int, default=1, help="run each program in N threads (1)")
    ask.add_argument("--machine", metavar="NAME", default="one-cluster", help=f"{ready()}, or a file (one-cluster)")
    ask.add_argument("--budget", metavar="N", type=int, default=BUDGET, help=f"the most firings ({BUDGET})")
    kinds = ask.add_mutually_exclusive_group()
    kinds.add_argument("--csv", action="store_true", help="print all numbers as a table in long form")
    kinds.add_argument("--json", action="store_true", help="print all numbers but those by cycle, and the machine")
    kinds.add_argument("--stats", action="store_true", help="print what wsc exec --stats prints, and the cycles")
    kinds.add_argument("--parameters", action="store_true", help="print the parameters of machines; no FILE is read")
    ask.add_argument("--svg", metavar="PICTURE", help="write a picture to this file too")
    ask.add_argument("--page", metavar="FILE", help="write a page that shows the run cycle by cycle")
    ask.add_argument("--title", metavar="TEXT", help="the title of both (the file's name and the machine)")
    ask.add_argument("--trace", metavar="FILE", help="write the events as a text for wsc replay; for several threads"
                     " to FILE.1 and so on")
    ask.add_argument("--places", metavar="FILE", help="write which instruction lies on which element")
    ask.add_argument("--verify", action="store_true",
                     help="check by wsc replay that the events are a run with the words and firings of wsc exec")
    add_program(ask)
    add_parameters(ask)
    return ask


def jobs_of(text: str) -> list[str]:
    """The jobs of a text, which lines %job separate."""
    made = [""]
    for line in text.splitlines(keepends=True):
        if line.rstrip("\r\n") == "%job":
            made.append("")
        else:
            made[-1] += line
    return made


@functools.lru_cache(maxsize=32)
def compiled(program: str, text: str) -> str:
    """The assembly of a text; those asked for last are kept, for a sweep in one process."""
    return str(assembly_of(program, text))


def assemblies(line: argparse.Namespace) -> list[str]:
    """The assembly of each thread."""
    if line.threads < 1:
        raise Fault("--threads is a whole number from 1 on")
    texts = [text for file in line.files or [None] for text in jobs_of(given(file))]
    return [made for text in texts for made in [compiled(line.wsc, text)] * line.threads]


def answer(line: argparse.Namespace, figures: Figures, machine: Values) -> None:
    """Prints what is asked for."""
    if line.csv:
        csv.writer(sys.stdout, lineterminator="\n").writerows(table(figures))
    elif line.json:
        print(as_json(figures, machine, of_result(line.wsc)), end="")
    elif line.stats:
        answers = [answer_of(figures.run, number) for number in range(len(figures.ends))]
        print("%job\n".join(answers), brief(figures).partition("firings")[0], sep="", end="")
    else:
        print(text(figures), end="")


def says(figures: Figures) -> str:
    """What --verify found, where it found nothing wrong."""
    run = figures.run
    if not has_trace(run):
        return ("wsc exec prints the same words and firings; with partial store queues the run's events are none of"
                " the core's, so wsc replay isn't asked")
    end = "; the budget was spent, so wsc exec isn't asked" if "budget" in figures.ends else (
        ", to the words and firings of wsc exec")
    each = f", {len(run.chains)} traces, a thread each" if len(run.chains) > 1 else ""
    return f"wsc replay takes all {len(run.record.events)} events{each}{end}"


def write(file: str | None, told: str | Iterable[str]) -> None:
    """Writes a file that the line names."""
    if file:
        with open(file, "w", errors="surrogateescape") as out:
            out.writelines([told] if isinstance(told, str) else told)


def write_all(line: argparse.Namespace, figures: Figures) -> None:
    """Writes the files that the line names but for those that say whether the run was verified."""
    run = figures.run
    if line.trace and not has_trace(run):
        raise Fault("with partial store queues the run's events are none of the core's: it has no trace")
    one = len(run.chains) == 1
    if line.places and not one:
        raise Fault("--places is for one thread")
    for number in range(len(run.chains)) if line.trace else ():
        write(line.trace if one else f"{line.trace}.{number + 1}", trace_of(run, number))
    if line.places:
        write(line.places, places_of(run.flat.programs[0].image, run.flat.place))


def main() -> int:
    line = ask_for().parse_args()
    if line.parameters:
        print(table_of(), end="")
        return 0
    machine = machine_of(line.machine, parameters_of(line))
    run = run_of(assemblies(line), machine, line.budget, bool(line.page))
    figures = Figures(run)
    write_all(line, figures)
    if line.verify:
        verify(line.wsc, run)
    answer(line, figures, machine)
    if line.verify and not (line.csv or line.json or line.stats):
        print(f"\nverified    {says(figures)}")
    names = ", ".join(dict.fromkeys(pathlib.Path(file).stem for file in line.files)) or "wsc"
    title = line.title or f"{names} on {line.machine}"
    made: tuple[tuple[str | None, Any], ...] = ((line.svg, picture), (line.page, page))
    for file, draw in made:
        write(file, draw(figures, title, line.verify) if file else "")
    return 0


tool = functools.partial(whole, main, images=True)

if __name__ == "__main__":
    sys.exit(tool())
