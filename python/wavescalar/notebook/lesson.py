"""Checks for exercises: a program is run on inputs, and its words are compared with those that are wanted.

    expect(mine, {(3,): (3, 2, 1), (0,): ()})

shows a row for each input and says at the first wrong one what differs; `judge` does so of anything else. Neither raises, so
that a notebook with an exercise that isn't solved runs to its end; `Verdict.passed` is for programs.
"""

from __future__ import annotations

from collections.abc import Callable, Mapping, Sequence
from dataclasses import dataclass
from html import escape
from typing import Any, Union

from wavescalar import tools
from wavescalar.faults import Fault
from wavescalar.image import Image
from wavescalar.notebook.jobs import Job
from wavescalar.notebook.show import table
from wavescalar.tools import Run

MOST = 8  # rows of a verdict that are shown
Words = Sequence[int]
# Whether a run does what is wanted besides its words: nothing, or what it lacks.
Also = Callable[[Run], Union[str, None]]


@dataclass(frozen=True)
class Row:
    """What is wanted, and what came.

    given: the input words of a run; None where it is about no run. wanted: the words that it should print, or what is
    wanted, in words. came: in words. passed: whether it is as it should be.
    """

    given: tuple[int, ...] | None
    wanted: tuple[int, ...] | str
    came: str
    passed: bool

    def lacks(self) -> str:
        """What is wrong, as a part of a sentence."""
        if isinstance(self.wanted, str):
            return f"wanted is {self.wanted}; {self.came}"
        on = f"on the input {_told(self.given)} " if self.given is not None else ""
        return f"{on}it should print {_told(self.wanted)}; {self.came}"


@dataclass(frozen=True)
class Verdict:
    """What a check found: a row for each input."""

    rows: tuple[Row, ...]

    @property
    def passed(self) -> bool:
        """Whether all is as it is wanted; a check without rows has found nothing."""
        return bool(self.rows) and all(row.passed for row in self.rows)

    def __str__(self) -> str:
        if self.passed:
            return "Solved." if len(self.rows) == 1 else f"Solved: all {len(self.rows)} are as they should be."
        row = next((row for row in self.rows if not row.passed), None)
        if row is None:
            return "Not yet: nothing was run."
        return f"Not yet: {row.lacks()}."

    def _repr_pretty_(self, printer: Any, cycle: bool) -> None:
        printer.text(str(self))

    def _repr_html_(self) -> str:
        colour = "#00805c" if self.passed else "#a33030"
        # where there are many, those that are wrong come first
        shown = self.rows if len(self.rows) <= MOST else sorted(self.rows, key=lambda row: row.passed)[:MOST]
        rows = [[escape("" if row.given is None else _told(row.given)), escape(_told(row.wanted)), escape(row.came),
                 "✓" if row.passed else "✗"] for row in shown]
        more = f"<p>.. and {len(self.rows) - MOST} more</p>" if len(self.rows) > MOST else ""
        return (f'<p style="color: {colour}"><b>{escape(str(self))}</b></p>'
                + table(["input", "wanted", "came", ""], rows) + more)


def _told(words: Words | str | None) -> str:
    """Words in a line; what stands there in words already, as it is."""
    return words if isinstance(words, str) else " ".join(map(str, words or ())) or "(nothing)"


def _run(of: Job | Image | str, given: Words, budget: int) -> Run:
    if isinstance(of, Job):
        return of.run(given, budget=budget, memory=True)
    return tools.run(of, given, budget=budget, memory=True)


def _row(of: Job | Image | str, given: Words, wanted: Words, budget: int, also: Also | None) -> Row:
    passed = False
    try:
        run = _run(of, given, budget)
    except Fault as fault:
        came = str(fault)
    else:
        came = f"it prints {_told(run.words)}" + ("" if run.ending == "halt" else f" and ends with {run.ending}")
        lacks = also(run) if also else None
        passed = run.ending == "halt" and run.words == tuple(wanted) and lacks is None
        came += f", but {lacks}" if lacks else ""
    return Row(tuple(given), tuple(wanted), came, passed)


def expect(of: Job | Image | str | None, cases: Mapping[tuple[int, ...], Words], *, budget: int = 20000,
           also: Also | None = None) -> Verdict:
    """Runs a program on each input, and compares what it prints.

    of: a job, an image, an assembly; None of an exercise that isn't begun. cases: the wanted words by the input words.
    budget: firings of a run. also: what is wanted besides, of a run; it says what lacks.
    """
    if of is None:
        return Verdict(tuple(Row(given, tuple(wanted), "there is no program yet", False)
                             for given, wanted in cases.items()))
    return Verdict(tuple(_row(of, given, wanted, budget, also) for given, wanted in cases.items()))


def judge(passed: bool, wanted: str, came: str) -> Verdict:
    """A verdict of one row, about anything: whether it is as it should be, what is wanted, and what came, in words."""
    return Verdict((Row(None, wanted, came, passed),))
