"""What a page or a notebook shows of programs and runs: pictures, tables of words, the viewer's page.

All pictures are drawn by `wavescalar.viewer`: the graph by `still`, waves by `overlap`, profiles by `profile_report`.
Each is a `Picture`, whose text of SVG needs no other file.
"""

from __future__ import annotations

from base64 import b64encode
from collections.abc import Callable, Sequence
from dataclasses import dataclass, field
from html import escape
from pathlib import Path
from typing import Any

from wavescalar import numbered
from wavescalar.cli import UNSOUND
from wavescalar.faults import Fault
from wavescalar.image import Image
from wavescalar.programs import usual
from wavescalar.tools import Run, Trace
from wavescalar.viewer import measure, profile_report, still, view
from wavescalar.viewer import overlap as waves_by_round

# So many words and cells are shown, and an image with so many instructions is drawn.
MOST_WORDS, MOST_CELLS, MOST_DRAWN = 200, 64, 600
# So many events of a run a page of the viewer steps through.
MOST_EVENTS = 20000
# What an ending says, where it isn't `halt`.
ENDS = {"budget": "its budget is spent", "fault": "an index isn't less than the array's length", "port": "the port failed"}
EDGE = "border: 1px solid #cfd6dd; border-radius: 4px; padding: 1px 7px; margin: 1px"
MONO = "font-family: 'DejaVu Sans Mono', Consolas, monospace"


@dataclass(frozen=True)
class Picture:
    """A drawing: its SVG, and what it shows in a line."""

    svg: str = field(repr=False)
    title: str

    def _repr_html_(self) -> str:
        # As an image: of an SVG in a page nbconvert and a notebook that isn't trusted leave nothing but its letters, and
        # the rules of one drawing would hold for all others.
        data = b64encode(self.svg.encode()).decode()
        return f'<img alt="{escape(self.title)}" style="max-width: 100%" src="data:image/svg+xml;base64,{data}">'

    def _repr_pretty_(self, printer: Any, cycle: bool) -> None:
        printer.text(f"Picture: {self.title}")

    def save(self, file: str | Path) -> None:
        """Writes the SVG to a file."""
        Path(file).write_text(self.svg)


@dataclass(frozen=True)
class Page:
    """A page of the viewer, with all that it needs in it, shown in a frame. height: in pixels."""

    html: str = field(repr=False)
    title: str
    height: int = 560

    def _repr_html_(self) -> str:
        return (f'<iframe srcdoc="{escape(self.html)}" title="{escape(self.title)}" sandbox="allow-scripts"'
                f' style="width: 100%; height: {self.height}px; border: 1px solid #cfd6dd"></iframe>')

    def _repr_pretty_(self, printer: Any, cycle: bool) -> None:
        printer.text(f"Page: {self.title}")


@dataclass(frozen=True)
class Several:
    """Objects that are shown one below the other."""

    parts: tuple[Any, ...]

    def _repr_html_(self) -> str:
        return "\n".join(f"<div>{html_of(part)}</div>" for part in self.parts)

    def _repr_pretty_(self, printer: Any, cycle: bool) -> None:
        printer.text("; ".join(type(part).__name__ for part in self.parts))


def html_of(shown: Any) -> str:
    """An object as HTML: a run, an image and a trace as they are drawn here, another as it shows itself, else its text."""
    for kind, made_of in OWN.items():
        if isinstance(shown, kind) and (told := made_of[0](shown)):
            return told
    made = getattr(shown, "_repr_html_", None)
    return str(made()) if made else f"<pre>{escape(str(shown))}</pre>"


def html_of_image(image: Image) -> str | None:
    """The graph of an image; nothing where it is too large to be drawn, or isn't sound."""
    try:
        return html_of(graph(image))
    except Fault:
        return None


def html_of_trace(trace: Trace) -> str:
    """The wave numbers of a trace by ideal rounds."""
    return html_of(overlap(str(trace)))


def brief(shown: Image | Run | Trace) -> str:
    """An object of the library in a line."""
    if isinstance(shown, Image):
        return f"Image of {len(shown.waves)} waves, {len(shown.blocks)} blocks, {len(shown.instructions)} instructions"
    if isinstance(shown, Trace):
        return f"Trace of {len(shown.events)} events, {shown.ending or 'no ending'}"
    return repr(shown)


def table(heads: Sequence[str], rows: Sequence[Sequence[Any]]) -> str:
    """A table as HTML."""
    head = "".join(f'<th style="text-align: left">{escape(str(it))}</th>' for it in heads)
    cells = ["".join(f'<td style="text-align: left; vertical-align: top">{cell}</td>' for cell in row) for row in rows]
    body = "".join(f"<tr>{row}</tr>" for row in cells)
    return f"<table><thead><tr>{head}</tr></thead><tbody>{body}</tbody></table>"


def _chips(words: Sequence[int], most: int) -> str:
    made = " ".join(f'<span style="{EDGE}; {MONO}; display: inline-block">{word}</span>' for word in words[:most])
    return made + (f" .. and {len(words) - most} more" if len(words) > most else "") if words else "<i>none</i>"


def html_of_run(run: Run) -> str:
    """The words of a run, how it ended, its arrays, and what it took."""
    ended = f"{run.ending} {run.where}" if run.where else run.ending
    counts = [f"({ENDS[run.ending]})"] if run.ending in ENDS else []
    counts += [f"{value} {name}" for name in ("turns", "firings", "cycles") if (value := getattr(run, name)) is not None]
    colour = "#00805c" if run.ending == "halt" else "#a33030"
    rows = [["prints", _chips(run.words, MOST_WORDS)]]
    if run.handed:
        rows.append(["port 1", _chips(run.handed, MOST_WORDS)])
    rows.append(["ends", f'<b style="color: {colour}">{escape(ended)}</b> {escape(", ".join(counts))}'])
    rows += [[f"<code>{escape(name)}</code>", _chips(cells, MOST_CELLS)] for name, cells in run.memory]
    body = "".join(f'<tr><td style="text-align: left; vertical-align: top">{name}</td>'
                   f'<td style="text-align: left">{told}</td></tr>' for name, told in rows)
    return f"<table>{body}</table>"


# What is shown of objects of the library, which know nothing of this: as HTML, and in a line.
OWN: dict[type, tuple[Callable[[Any], str | None], Callable[[Any], str]]] = {
    Image: (html_of_image, brief), Run: (html_of_run, brief), Trace: (html_of_trace, brief),
}


def _drawn(image: Image | str) -> Any:
    """An assembly as the tools read it; Fault where it can't be read."""
    return numbered.read(str(image))


def graph(image: Image | str, wave: int | None = None, title: str = "") -> Picture:
    """The graph of an image or of an assembly, or of one of its waves, by number from 1.

    Raises Fault for a text that can't be read, for a wave that isn't there, and for a drawing of more than 600
    instructions; `wave` draws one of many waves.
    """
    drawn = _drawn(image)
    shown = sum(wave in (None, drawn.blocks[it.block].wave) for it in drawn.instrs[1:])
    if shown > MOST_DRAWN:
        raise Fault(f"{shown} instructions are too many to be drawn: at most {MOST_DRAWN}")
    if wave is not None and not 1 <= wave <= drawn.waves:
        raise Fault(f"there is no wave {wave}: the image has {drawn.waves}")
    try:
        made = still.picture(drawn, wave)
    except UNSOUND as fault:
        raise Fault("this isn't a sound image; wsc check says why") from fault
    waves = "1 wave" if drawn.waves == 1 else f"{drawn.waves} waves"
    return Picture(made, title or f"{f'wave {wave}' if wave else waves}, {shown} instructions")


def overlap(text: str, title: str = "Waves side by side") -> Picture:
    """The wave numbers of a run by ideal rounds. text: an assembly with its input section; a trace of it is left aside."""
    _drawn(text)
    return Picture(waves_by_round.picture(text, title), title)


def profile(text: str, title: str = "Profile") -> Picture:
    """The six panels of the profiler. text: an assembly with its input and its trace."""
    return Picture(profile_report.picture(measure.Profile(text), title), title)


def page(text: str, job: str = "", title: str = "wsc", *, wsc: str | None = None, rounds: bool = False,
         height: int = 560) -> Page:
    """The viewer's page, which steps through a run.

    text: an assembly with its input and its trace. job: the job that it was made of, shown beside it, with each
    instruction's statement. rounds: all that can happen at once, in place of the trace's order. height: in pixels.
    """
    made = view.page(text, title, MOST_EVENTS, job, wsc or usual(), "rounds" if rounds else "trace")
    return Page(made, title, height)
