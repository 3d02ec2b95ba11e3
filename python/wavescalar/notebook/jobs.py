"""Jobs, programs of docs/LANGUAGE.md with their input, as objects: compiled, run, traced and drawn by `wsc`."""

from __future__ import annotations

from collections.abc import Iterable
from dataclasses import dataclass
from html import escape
from typing import TYPE_CHECKING, Any

from wavescalar import tools
from wavescalar.faults import CallFault
from wavescalar.image import Image
from wavescalar.text import read, sections
from wavescalar.tools import ENDED, Run, Trace

if TYPE_CHECKING:
    from wavescalar.notebook.show import Page, Picture


@dataclass(frozen=True)
class Job:
    """A job: the text of a program, and behind a line `%input` the words that it reads.

    All calls ask the program `wsc`, that of WSC as `tools` has it, and raise Refused where it refuses the text. `input`
    takes the place of the text's own words; `timeout` is in seconds.
    """

    text: str
    name: str = "job"

    @property
    def program(self) -> str:
        """The text without its input section."""
        return sections(self.text)[0]

    def with_input(self, words: Iterable[int]) -> Job:
        """The same program on these words."""
        return Job(tools._with_input(self.text, words), self.name)

    def run(self, input: Iterable[int] | None = None, *, workers: int = 1, budget: int | None = None,
            memory: bool = False, wsc: str | None = None, timeout: float | None = None) -> Run:
        """Compiles and runs it by `wsc run`. workers: 1 to 8; budget: firings; memory: whether arrays are shown."""
        text = tools._with_input(self.text, input)
        return tools._one(["run", "--workers", str(workers)], budget, memory, text, wsc, timeout)

    def plain(self, input: Iterable[int] | None = None, *, turns: int | None = None, memory: bool = False,
              wsc: str | None = None, timeout: float | None = None) -> Run:
        """Runs it statement by statement, by `wsc plain`; the ending `budget` says that its turns were spent."""
        words = ["plain", "--stats", *(["--turns", str(turns)] if turns is not None else []), *["--memory"] * memory]
        status, out, _ = tools._call(tools._wsc(wsc), words, tools._with_input(self.text, input), timeout)
        lines = ["budget" if line == "turns" else line for line in out.splitlines()]
        done = tools._told(lines, ())
        if done.ending != ENDED[status]:
            raise CallFault(f"wsc plain answered {done.ending} with status {status}", status)
        return done

    def formatted(self, *, wsc: str | None = None, timeout: float | None = None) -> str:
        """The program in the one layout of `wsc format`, without comments and input."""
        return tools._call(tools._wsc(wsc), ["format"], self.text, timeout)[1]

    def assembly(self, *, wsc: str | None = None, timeout: float | None = None) -> str:
        """What it compiles to, with its input section behind it."""
        made = tools._call(tools._wsc(wsc), ["compile"], self.text, timeout)[1]
        given = sections(self.text)[1]
        return made + ("" if given is None else f"%input\n{given}")

    def image(self, *, wsc: str | None = None, timeout: float | None = None) -> Image:
        """The image that it compiles to."""
        return read(self.assembly(wsc=wsc, timeout=timeout))

    def trace(self, input: Iterable[int] | None = None, *, budget: int | None = None, wsc: str | None = None,
              timeout: float | None = None) -> Trace:
        """The events of its run on one thread."""
        text = Job(tools._with_input(self.text, input)).assembly(wsc=wsc, timeout=timeout)
        return tools.trace(text, budget=budget, wsc=wsc, timeout=timeout)

    def graph(self, wave: int | None = None) -> Picture:
        """The graph that it compiles to, or one of its waves, by number from 1."""
        from wavescalar.notebook.show import graph
        return graph(self.assembly(), wave)

    def waves(self) -> Picture:
        """Which of its wave numbers work side by side, by ideal rounds."""
        from wavescalar.notebook.show import overlap
        return overlap(self.assembly(), f"Waves of {self.name} side by side")

    def profile(self) -> Picture:
        """What its run is made of: firings by kind, waits of memory operations, the critical path."""
        from wavescalar.notebook.show import profile
        return profile(str(self.trace()), self.name)

    def page(self, *, rounds: bool = False, height: int = 560) -> Page:
        """The viewer's page, which steps through its run."""
        from wavescalar.notebook.show import page
        return page(str(self.trace()), self.program, self.name, rounds=rounds, height=height)

    def _repr_html_(self) -> str:
        lines = self.text.rstrip("\n").split("\n")
        told = "\n".join(f'<span style="color: #8f9aa5">{at:3}</span>  {escape(line)}' for at, line in enumerate(lines, 1))
        return f'<pre style="text-align: left; line-height: 1.35">{told}</pre>'

    def _repr_pretty_(self, printer: Any, cycle: bool) -> None:
        printer.text(self.text.rstrip("\n"))
