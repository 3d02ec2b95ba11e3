"""What the modules of the pages make of texts is what the tools in Python make of them, equal as JSON: the drawing, which notebooks
have too; the statements of instructions, which a page in a file is given; orders of events, of notebooks and of wsc-profile; and
what is said of a refusal, which wsc-why says. The texts are the examples, the jobs and assemblies of tests/*.txt that run, and
all that is refused there.
"""

from __future__ import annotations

import json
from collections.abc import Iterator
from typing import Any

import pytest

from repo.answers import cases_in
from tests import asked
from tests.scripts import Scripts
from wavescalar.diagnose.refusals import of_refusal
from wavescalar.faults import Fault
from wavescalar.numbered import kind_of, read
from wavescalar.programs import ROOT, assembly_of, call
from wavescalar.reader import lines_of
from wavescalar.viewer.orders import order_of, replayed, title_of
from wavescalar.viewer.view import found_of
from wavescalar.viewer.waves import drawing

ORDERS = (("trace", "rounds"), ("grid-4-2", "random-1"), ("grid-16-4", "random-77"))
# So many events of an order, so that the answers stay small.
MOST = 3000
# The parts in which texts are compared, each a test.
PARTS = 12


def texts() -> tuple[list[str], list[str]]:
    """The texts that run, and those that are refused."""
    run, refused = dict[str, None](), dict[str, None]()
    for folder in ("examples", "examples/kernels", "examples/viewer", "examples/backend"):
        for file in sorted((ROOT / folder).glob("*")):
            if file.suffix in (".job", ".asm"):
                run[file.read_text()] = None
    for file in sorted((ROOT / "tests").glob("*.txt")):
        for words, text, status, _ in cases_in(file):
            if words[0] in ("plain", "run", "exec", "decouple", "grid", "trace") and status in (0, 8) and "%trace" not in text:
                run[text] = None
            elif status == 2 and words[0] in ("run", "plain", "exec", "check", "compile"):
                refused[text] = None
    return list(run), list(refused)


RUN, REFUSED = texts()


def plain(told: Any) -> Any:
    """What a page gets of it."""
    return json.loads(json.dumps(told))


def differs(own: Any, other: Any, where: str = "") -> str:
    """The first place at which two values differ, or nothing."""
    if isinstance(own, dict) and isinstance(other, dict):
        keys = [*own, *(key for key in other if key not in own)]
        return next(filter(None, (differs(own.get(key), other.get(key), f"{where}.{key}") for key in keys)), "")
    if isinstance(own, list) and isinstance(other, list) and len(own) == len(other):
        return next(filter(None, (differs(a, b, f"{where}[{k}]") for k, (a, b) in enumerate(zip(own, other)))), "")
    return "" if own == other else f"{where}: {other!r:.200} and not {own!r:.200}"


def by_page(scripts: Scripts, name: str, *args: Any) -> Any:
    """What the modules make, or why they make nothing."""
    try:
        return scripts(name, *args)
    except Fault as fault:
        return str(fault)


def drawn(program: str, text: str) -> Any:
    """The drawing of a text, and its statements, by Python."""
    job, image = "\n".join(lines_of(text)) if kind_of(text) == "job" else "", read(assembly_of(program, text))
    return {"drawing": drawing(image), "text": image.text, "arrays": image.arrays, "input": [str(it) for it in image.input],
            "job": job, **found_of(program, job, image)}


def shown(program: str, text: str, name: str) -> Any:
    """An order of a text by Python."""
    assembly = assembly_of(program, text)
    made = order_of(name, assembly, program, MOST)
    grid = made.grid and {"elements": made.grid.elements, "waves": made.grid.waves, "cycles": made.grid.told_cycles}
    return {"order": name, "title": title_of(name), "replayed": replayed(made, assembly, program), "start": made.start,
            "steps": made.steps, "grid": grid}


def or_fault(make: Iterator[Any]) -> Any:
    """What is made, or the fault, as the modules say it."""
    try:
        return plain(next(make))
    except Fault as fault:
        return f"Fault: {fault}"


@pytest.mark.parametrize("part", range(PARTS))
def test_drawn(wsc: str, scripts: Scripts, every: int, part: int) -> None:
    """The drawing, and the statements of instructions."""
    for text in RUN[::every][part::PARTS]:
        made, wanted = by_page(scripts, "drawn", text), or_fault(drawn(wsc, it) for it in (text,))
        if isinstance(made, dict):
            del made["into"]
        asked.want(f"the drawing of {text[:200]!r}", differs(wanted, made), "")


@pytest.mark.parametrize("part", range(PARTS))
def test_shown(wsc: str, scripts: Scripts, every: int, part: int) -> None:
    """Orders of events."""
    for text in RUN[::every][part::PARTS]:
        for names in ORDERS:
            made = by_page(scripts, "shown", text, names, MOST)
            wanted = or_fault([shown(wsc, it, name) for name in names] for it in (text,))
            runs = [{key: run[key] for key in run if key != "why"} for run in made["runs"]] if isinstance(made, dict) else made
            asked.want(f"{names} of {text[:200]!r}", differs(wanted, runs), "")


@pytest.mark.parametrize("part", range(PARTS))
def test_said(wsc: str, scripts: Scripts, every: int, part: int) -> None:
    """What is said of refusals; of texts that run, that all print the same."""
    for text in [*RUN, *REFUSED][::every][part::PARTS]:
        made = scripts("said", text)
        words = {"job": "plain", "assembly": "exec", "trace": "replay"}[made["kind"]]
        status, answer, _ = call(wsc, [words, "--budget" if words == "exec" else "--turns", "500000"][: 1 if words == "replay" else 3],
                                 text)
        asked.want(f"whether it is refused: {text[:200]!r}", status == 2, "refused" in made)
        if status == 2:
            told = of_refusal(answer, text, words, [])
            asked.want(f"the refusal of {text[:200]!r}", (made["refused"], made["said"]), (answer.strip(), told))
        elif made["kind"] != "trace":
            asked.want(f"the runs of {text[:200]!r}", (made["same"], made["runs"][0]["words"]),
                       (True, [line for line in answer.splitlines() if line.isdigit()][:2000]))
