"""A run of texts on a machine, put together: what wsc-sim, wsc-plan and check.py call."""

from __future__ import annotations

from collections.abc import Sequence

from wavescalar.numbered import read
from wavescalar.timing.engine import Run
from wavescalar.timing.flat import Flat
from wavescalar.timing.parameters import Values
from wavescalar.timing.shape import Shape

# the usual most firings
BUDGET = 4000000


def prepared(texts: str | Sequence[str], machine: Values, budget: int = BUDGET) -> Run:
    """A run of assemblies, a thread each, with their input sections, on a machine, before its first event."""
    images = [read(text) for text in ([texts] if isinstance(texts, str) else texts)]
    return Run(Flat(images, Shape(machine), machine), machine, budget)


def run_of(texts: str | Sequence[str], machine: Values, budget: int = BUDGET, noted: bool = False) -> Run:
    """The whole run; where it is asked for, each operand's way is noted."""
    run = prepared(texts, machine, budget)
    run.noted = [] if noted else None
    return run.go()
