"""Timed runs by the timing model (docs/TIMING.md), and sweeps over machines and their parameters.

Cycles are the model's word. `verify=True` gives the events of a run to `wsc replay`, which is proved, and compares words
and firings with those of `wsc exec`.
"""

from __future__ import annotations

import itertools
import tempfile
from collections.abc import Iterable, Iterator, Mapping
from dataclasses import dataclass, field
from typing import Any, Union

from wavescalar import tools
from wavescalar.faults import Fault
from wavescalar.image import Image
from wavescalar.notebook.jobs import Job
from wavescalar.notebook.show import Picture, html_of
from wavescalar.programs import usual
from wavescalar.timing import figures as measured
from wavescalar.timing import model, parameters, pictures, report, verify as verifier
from wavescalar.viewer import gather

Program = Union[Job, Image, str]
# What a sweep tells of each run, by the model's names; `TimingResult.facts` has more.
TOLD = ("cycles", "firings", "firings a cycle", "issues", "critical", "elements used", "utilisation of those used",
        "operands", "operand latency", "wait for an element", "matching misses", "load hits", "load misses", "early loads",
        "memory wait", "memory wait for the chain")


@dataclass(frozen=True)
class TimingResult:
    """A timed run.

    machine: the name of a machine that comes along, or a file. parameters: those that were set besides. words: what it printed.
    ending: `halt`, `budget` or `fault ARRAY`. cycles, firings: counts. facts: all figures of the run, times in cycles.
    parts: what the cycles on the critical path go to. verified: whether `wsc` took the run; None where it wasn't asked.
    """

    name: str
    machine: str
    parameters: Mapping[str, Any]
    words: tuple[int, ...]
    ending: str
    cycles: int
    firings: int
    facts: Mapping[str, Any]
    parts: Mapping[str, int]
    verified: bool | None
    figures: Any = field(repr=False, compare=False)

    def record(self) -> dict[str, Any]:
        """The run as a row of a table: program, machine, parameters, and what `TOLD` names."""
        return {"program": self.name, "machine": self.machine, **self.parameters, "ending": self.ending,
                "verified": self.verified, **{name.replace(" ", "_"): self.facts[name] for name in TOLD}}

    def __str__(self) -> str:
        return str(report.text(self.figures))

    def picture(self) -> Picture:
        """Six panels: firings, queues and requests by cycle, the use of elements, what the cycles and operands go to."""
        title = f"{self.name} on {self.machine}"
        return Picture(pictures.picture(self.figures, title, bool(self.verified)), title)

    def _repr_html_(self) -> str:
        return html_of(self.picture())

    def _repr_pretty_(self, printer: Any, cycle: bool) -> None:
        printer.text(f"{self.name} on {self.machine}: {self.cycles} cycles, {self.firings} firings, {self.ending}")


def machines() -> list[str]:
    """The names of the machines that come along, in alphabetical order."""
    return sorted(file.stem for file in parameters.MACHINES.glob("*.toml"))


def _parameters(given: Mapping[str, Any]) -> dict[str, Any]:
    """Parameters by the model's names: `network_pod` stands for `network.pod`."""
    known = parameters.PARAMETERS
    named = {name.replace("_", "."): value for name, value in given.items()}
    for name in named:
        if name not in known:
            raise Fault(f"the model has no parameter {name} (docs/TIMING.md has all)")
    return named


def timed(of: Program, input: Iterable[int] | None = None, *, machine: str = "one-cluster", verify: bool = False,
          budget: int | None = None, name: str = "", places: Mapping[int | str, int] | None = None,
          wsc: str | None = None, **parameters: Any) -> TimingResult:
    """A run on the timing model.

    of: a job, an image or an assembly. input: words in place of its own. machine: one of `machines()`, or a file.
    budget: firings, at most. places: the element, from 0, of each instruction, by its number or name. parameters: those
    of docs/TIMING.md, with `_` for `.`, as `waves=8` or `network_pod=2`. Raises Fault where the model can't take them,
    and where `verify` is asked and `wsc` doesn't take the run.
    """
    named = _parameters(parameters)
    text = of.assembly(wsc=wsc) if isinstance(of, Job) else str(of)
    text = tools._with_input(text, input)
    if places is None:
        return _timed(of, text, machine, named, verify, budget, name, wsc)
    with tempfile.NamedTemporaryFile("w", suffix=".places") as file:
        file.writelines(f"{instruction} {element}\n" for instruction, element in places.items())
        file.flush()
        by_file = {"placement.policy": "file", "placement.file": file.name}
        return _timed(of, text, machine, named | by_file, verify, budget, name, wsc)


def _timed(of: Program, text: str, machine: str, named: dict[str, Any], verify: bool, budget: int | None, name: str,
           wsc: str | None) -> TimingResult:
    """The run of an assembly, which `of` is or has become."""
    values = parameters.machine_of(machine, named)
    run = model.run_of(text, values, model.BUDGET if budget is None else budget)
    figures = measured.Figures(run)
    if verify:
        verifier.verify(wsc or usual(), run)
    facts = figures.facts()
    named = {key: value for key, value in named.items() if key != "placement.file"}
    return TimingResult(name or (of.name if isinstance(of, Job) else "image"), machine, named,
                        tuple(run.chains[0].printed), figures.end, facts["cycles"], facts["firings"], facts,
                        dict(figures.path.parts), True if verify else None, figures)


def _named(of: Mapping[str, Program] | Program) -> dict[str, Program]:
    if isinstance(of, Mapping):
        return dict(of)
    return {of.name if isinstance(of, Job) else "image": of}


def _choices(value: Any) -> list[Any]:
    return list(value) if isinstance(value, (list, tuple, range)) else [value]


def sweep(of: Mapping[str, Program] | Program, *, machine: str | Iterable[str] = "one-cluster", verify: bool = False,
          budget: int | None = None, wsc: str | None = None, **parameters: Any) -> list[dict[str, Any]]:
    """Timed runs of each program on each machine with each choice of parameters, as rows for `pandas.DataFrame`.

    of: programs by name, or one. A parameter with a list, a tuple or a range stands for each of its values. Rows come in
    the order of the arguments, the last parameter the fastest; `TimingResult.record` has their names.
    """
    return [run.record() for run in runs_of(of, machine=machine, verify=verify, budget=budget, wsc=wsc, **parameters)]


def runs_of(of: Mapping[str, Program] | Program, *, machine: str | Iterable[str] = "one-cluster", verify: bool = False,
            budget: int | None = None, wsc: str | None = None, **parameters: Any) -> Iterator[TimingResult]:
    """As `sweep`, each run as it comes, with all its figures."""
    names = list(parameters)
    each = [_choices(parameters[name]) for name in names]
    on = [machine] if isinstance(machine, str) else list(machine)
    # what a job compiles to is the same for all its runs
    texts = {name: (it.assembly(wsc=wsc) if isinstance(it, Job) else str(it)) for name, it in _named(of).items()}
    for (name, text), where, values in itertools.product(texts.items(), on, itertools.product(*each)):
        yield timed(text, machine=where, verify=verify, budget=budget, name=name, wsc=wsc, **dict(zip(names, values)))


def records(folder: str) -> list[dict[str, Any]]:
    """The results of a sweep by wsc-sweep or wsc-plan, which stand as files in a folder, as rows."""
    return list(gather.results(folder))
