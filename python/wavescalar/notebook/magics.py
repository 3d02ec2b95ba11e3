"""Jupyter: `%load_ext wavescalar.notebook` gives the cell magics `%%job` and `%%asm`.

    %%job [NAME] [--workers N] [--show KIND] [--input "1 2 3"] [--budget N] [--wave K]
    %%asm [NAME] [--link] and the same

The cell is the text of a job, or of an assembly, perhaps with an input section; `--link` takes a draft, to which `wsl`
gives its notes. NAME is bound to the `Job` or the `Image`. KIND is one of these, or several with commas:

    words    what the run prints, and how it ends (the usual one)
    graph    the graph of its instructions; --wave K draws one wave of the code
    waves    the wave numbers of the run, by rounds: which work side by side
    cells    the words, and the arrays at the end
    profile  the profiler's panels
    page     the viewer, which steps through the run

A text that is refused is shown with its faults, a caret under each, and why; then NAME is None.
"""

from __future__ import annotations

import argparse
import shlex
from typing import Any, Callable, NoReturn, Union

from wavescalar import programs, tools
from wavescalar.faults import Fault, Refused
from wavescalar.notebook import show
from wavescalar.notebook.explain import Explanation, explain, is_draft
from wavescalar.notebook.jobs import Job
from wavescalar.text import input_of, read, sections

KINDS = ("words", "graph", "waves", "cells", "profile", "page")
# What a magic is about: a job, or an image with the input words of its text.
Given = Union[Job, "Assembly"]


class Usage(Fault):
    """The words behind a magic are none that it knows."""


class Assembly:
    """The text of a `%%asm` cell: what `Job` is of a job.

    text: an assembly, with its input section. image: what it says.
    """

    name = "assembly"

    def __init__(self, text: str) -> None:
        self.text, self.image = text, read(text)

    def run(self, **options: Any) -> tools.Run:
        """Its run, by `wsc exec`."""
        return tools.run(self.text, **options)

    def assembly(self) -> str:
        """Its text."""
        return self.text

    def traced(self) -> str:
        """Its text with the events of its run; names stay."""
        own = self.text if sections(self.text)[1] is not None else f"{self.text.rstrip()}\n%input\n"
        events = "".join(f"{event}\n" for event in tools.trace(self.text).events)
        return f"{own.rstrip()}\n%trace\n{events}"


class _Words(argparse.ArgumentParser):
    """The words behind a magic; a wrong one is a fault, and ends nothing."""

    def error(self, message: str) -> NoReturn:
        raise Usage(f"{message}\n{self.format_usage()}".rstrip())


def _kinds(word: str) -> list[str]:
    kinds = word.split(",")
    for kind in kinds:
        if kind not in KINDS:
            raise argparse.ArgumentTypeError(f"`{kind}` is none of {', '.join(KINDS)}")
    return kinds


def _input(words: str) -> list[int]:
    """The words of `--input`, separated by blanks or commas."""
    try:
        return list(input_of(f"%input\n{words.replace(',', ' ')}\n"))
    except ValueError as fault:
        raise argparse.ArgumentTypeError("input words are whole numbers below 2^64") from fault


def _ask(magic: str) -> _Words:
    link = " [--link]" if magic == "asm" else ""
    told = f'%%%%{magic} [NAME]{link} [--workers N] [--show {"|".join(KINDS)}] [--input "1 2 3"] [--budget N] [--wave K]'
    ask = _Words(prog=f"%%{magic}", add_help=False, usage=told)
    ask.add_argument("name", nargs="?")
    ask.add_argument("--workers", type=int, default=1, choices=range(1, 9), metavar="N")
    ask.add_argument("--show", type=_kinds, action="extend")
    ask.add_argument("--input", type=_input)
    ask.add_argument("--budget", type=int)
    ask.add_argument("--wave", type=int)
    if magic == "asm":
        ask.add_argument("--link", action="store_true")
    return ask


def asked(magic: str, line: str) -> argparse.Namespace:
    """The words behind a magic; raises Usage where they are none."""
    try:
        told = _ask(magic).parse_args(shlex.split(line))
    except ValueError as fault:  # a quote that isn't closed
        raise Usage(str(fault)) from fault
    if told.name is not None and not told.name.isidentifier():
        raise Usage(f"`{told.name}` is no name of Python")
    return told


def shown(given: Given, kind: str, told: argparse.Namespace) -> Any:
    """One of the kinds, of a job or an assembly that isn't refused."""
    if kind in ("words", "cells"):
        return given.run(workers=told.workers, budget=told.budget, memory=kind == "cells")
    if kind == "graph":
        return show.graph(given.assembly(), told.wave)
    if kind == "waves":
        given.run(budget=told.budget)
        return show.overlap(given.assembly(), f"Waves of {told.name or given.name} side by side")
    traced = str(given.trace(budget=told.budget)) if isinstance(given, Job) else given.traced()
    if kind == "profile":
        return show.profile(traced, told.name or given.name)
    return show.page(traced, given.program if isinstance(given, Job) else "", told.name or given.name)


def job(line: str, cell: str, bind: Callable[[str, Any], None] = lambda name, value: None) -> Any:
    """What `%%job` shows of a cell. bind: binds the magic's NAME to the Job."""
    told = asked("job", line)
    given = Job(tools._with_input(cell, told.input), told.name or "job")
    try:
        made = _shown(given, told)
    except Refused as refused:
        _bind(bind, told, None)
        return explain(refused, given.text, "run")
    _bind(bind, told, given)
    return made


def asm(line: str, cell: str, bind: Callable[[str, Any], None] = lambda name, value: None) -> Any:
    """What `%%asm` shows of a cell. bind: binds the magic's NAME to the Image."""
    told = asked("asm", line)
    text, command = tools._with_input(cell, told.input), "link" if told.link else "check"
    try:
        if told.link:
            text = _linked(text)
        else:
            tools.check(sections(text)[0])
        given = Assembly(text)
        made = _shown(given, told)
    except Refused as refused:
        _bind(bind, told, None)
        explained = explain(refused, text, command)
        return _with_hint(explained) if command == "check" and is_draft(text) else explained
    _bind(bind, told, given.image)
    return made


def _bind(bind: Callable[[str, Any], None], told: argparse.Namespace, value: Any) -> None:
    if told.name:
        bind(told.name, value)


def _linked(text: str) -> str:
    """The image that `wsl` makes of a draft, as a text with the draft's input; Refused where the draft has faults."""
    image = tools.link(text)
    given = sections(text)[1]
    return str(image) + ("" if given is None else f"%input\n{given}")


def _with_hint(explained: Explanation) -> Explanation:
    return Explanation(explained.answer, (*explained.lines, "hint: this is a draft: `%%asm --link` gives it its notes"),
                       explained.places)


def _shown(given: Given, told: argparse.Namespace) -> Any:
    parts = [shown(given, kind, told) for kind in told.show or ["words"]]
    return parts[0] if len(parts) == 1 else show.Several(tuple(parts))


def add_to(shell: Any) -> None:
    """Adds the magics to a shell of IPython, lets images, runs and traces show themselves there, and lets `wsc` be built
    where it must be first."""
    def magic(act: Callable[..., Any]) -> Callable[[str, str], Any]:
        def call(line: str, cell: str) -> Any:
            try:
                return act(line, cell, lambda name, value: shell.push({name: value}))
            except Fault as fault:
                print(fault)
                return None
        call.__doc__ = __doc__
        return call

    def plainly(told: Callable[[Any], str]) -> Callable[[Any, Any, bool], None]:
        def plain(shown: Any, printer: Any, cycle: bool) -> None:
            printer.text(told(shown))
        return plain

    programs.ready(programs.usual())
    formatters = shell.display_formatter.formatters
    for kind, (html, line) in show.OWN.items():
        formatters["text/html"].for_type(kind, html)
        formatters["text/plain"].for_type(kind, plainly(line))
    shell.register_magic_function(magic(job), "cell", "job")
    shell.register_magic_function(magic(asm), "cell", "asm")
