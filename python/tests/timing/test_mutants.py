"""Faults that are put into the model, and whether `wsc replay` finds them."""

from __future__ import annotations

from collections.abc import Callable
from typing import Any
from unittest import mock

import pytest

from tests.places import EXAMPLES
from wavescalar.isa import OPERATORS
from wavescalar.programs import assembly_of
from wavescalar.timing.engine import Run
from wavescalar.timing.model import prepared
from wavescalar.timing.parameters import machine_of
from wavescalar.timing.verify import verified


def no_ripples(run: Run) -> Run:
    """Loads don't wait for the stores that their ripple numbers name."""
    run.flat.ripple = [0] * run.flat.count
    return run.go()


def lost(run: Run) -> Run:
    """A token is lost."""
    send = run.send

    def but_one(*told: Any) -> None:
        if run.fired != 40:
            send(*told)
    with mock.patch.object(run, "send", but_one):
        return run.go()


def wrong_sums(run: Run) -> Run:
    """Sums are one too large."""
    run.flat.does = [(lambda a, b: a + b + 1) if op == "add" else OPERATORS.get(op, OPERATORS["add"]).does
                     for op in run.flat.op]
    return run.go()


def stale(run: Run) -> Run:
    """Loads give 0."""
    chain = run.chains[0]
    do = chain.do
    with mock.patch.object(chain, "do", lambda it: 0 if run.flat.op[it.instr] == "load" else do(it)):
        return run.go()


def turned(run: Run) -> Run:
    """Two events that depend on each other are told in the wrong order."""
    events = run.go().record.events
    events[0], events[1] = events[1], events[0]
    return run


def twice(run: Run) -> Run:
    """An event is told twice."""
    events = run.go().record.events
    events[50] = events[49]
    return run


@pytest.mark.parametrize("fault", (no_ripples, lost, wrong_sums, stale, turned, twice), ids=lambda it: str(it.__name__))
def test_fault_is_found(wsc: str, fault: Callable[[Run], Run]) -> None:
    """`wsc replay` refuses the events of such a model, or says something else than `wsc exec`."""
    text = assembly_of(wsc, (EXAMPLES / "order.job").read_text())
    assert verified(wsc, fault(prepared(text, machine_of("far")))), f"isn't found: {fault.__doc__}"
