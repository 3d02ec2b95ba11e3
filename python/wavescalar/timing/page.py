"""A run as a page, cycle by cycle: which elements fire what, where operands are on their way, and what bound each
cycle. It has all in it, and looks as the viewer's pages do.
"""

from __future__ import annotations

import json
import pathlib
from collections import Counter
from typing import Any

from wavescalar.timing.causes import PARTS, parts_of
from wavescalar.timing.figures import Figures
from wavescalar.timing.record import ADDRESS, FIRING, FOLLOW, ISSUE
from wavescalar.timing.report import summary

HERE = pathlib.Path(__file__).resolve().parent
# the most firings and issues that a page shows, and the most ways between two places that it draws at a time
MOST, WAYS = 20000, 400
WORDS = {FIRING: "fires", ADDRESS: "sends its address", ISSUE: "is issued", FOLLOW: "is done in its queue"}


def name_of(figures: Figures, key: int) -> str:
    """An instance in words."""
    flat = figures.flat
    wave, i = divmod(key, flat.count)
    program = flat.program[i]
    thread = f"thread {program.number + 1} " if len(flat.programs) > 1 else ""
    return f"{thread}{program.image.name_of(i - program.first)} {flat.op[i]}, wave {wave}"


def events(figures: Figures) -> list[list[Any]]:
    """Firings and issues: the cycle, the kind, the element or ~ of the cluster whose store buffer it is, the name."""
    record, flat, homes = figures.record, figures.flat, figures.run.homes
    made = []
    for kind, key, when in zip(record.kind[:MOST], record.key, record.when):
        wave, i = divmod(key, flat.count)
        place = flat.place[i] if kind < ISSUE else ~homes.of(flat.program[i].number, wave)
        made.append([when, kind, place, name_of(figures, key)])
    return made


def bounds(figures: Figures, last: int) -> list[list[Any]]:
    """What bound the cycles, from the first on: the cycle up to which a piece of the path goes, its part by its
    number, and the event that waited."""
    run, record, names = figures.run, figures.record, list(PARTS)
    made: list[list[Any]] = []
    event = len(record.when) - 1
    while event >= 0:
        at = record.when[event]
        told = f"{name_of(figures, record.key[event])} {WORDS[record.kind[event]]}"
        for part, cycles in reversed(parts_of(run, event)):
            if cycles:
                made.append([at, names.index(part), told])
                at -= cycles
        event = record.cause[event]
    return [piece for piece in reversed(made) if piece[0] <= last]


def traffic(figures: Figures) -> list[list[int]]:
    """Between which two places how many operands go in the whole run, most first; requests stand for themselves."""
    many: Counter[tuple[int, int]] = Counter()
    for arcs in figures.flat.lists:
        for ends in arcs.ends:
            if ends[0] != ends[1]:
                many[ends] += arcs.used
    return [[*ends, count] for ends, count in many.most_common(WAYS) if count]


def printed(figures: Figures) -> list[list[Any]]:
    """The words that are printed, each with the cycle."""
    record, flat = figures.record, figures.flat
    at, made = [0] * len(figures.run.chains), []
    for kind, key, when in zip(record.kind, record.key, record.when):
        i = key % flat.count
        if kind == ISSUE and flat.op[i] == "out":
            number = flat.program[i].number
            made.append([when, number, str(figures.run.chains[number].printed[at[number]])])
            at[number] += 1
    return made


def lying(figures: Figures) -> list[list[str]]:
    """The instructions of each element."""
    flat = figures.flat
    made: list[list[str]] = [[] for _ in range(flat.shape.count)]
    for i in range(1, flat.count):
        program = flat.program[i]
        thread = f"{program.number + 1}: " if len(flat.programs) > 1 else ""
        made[flat.place[i]].append(f"{thread}{program.image.name_of(i - program.first)} {flat.op[i]}")
    return made


def page(figures: Figures, title: str, taken: bool = False) -> str:
    """The page; `taken` says that wsc has verified the run."""
    run, record, shape = figures.run, figures.record, figures.flat.shape
    told = events(figures)
    last = told[-1][0] if len(record.when) > MOST else figures.cycles
    places, corners, wide, high, across = shape.drawn()
    data = {
        "cycles": last, "all": figures.cycles, "events": told, "places": places, "corners": corners,
        "cluster": [wide, high], "size": [across, corners[-1][1] + high + 1], "shape": [shape.pod, shape.domain,
                                                                                      shape.cluster],
        "ways": [list(way) for way in sorted(run.noted or ()) if way[0] <= last], "traffic": traffic(figures),
        "parts": [[name, cycles, PARTS[name]] for name, cycles in figures.path.parts.items()],
        "bounds": bounds(figures, last), "printed": printed(figures), "lying": lying(figures),
        "busy": list(record.busy), "facts": [line for line in summary(figures) if line],
        "said": "wsc has verified this run" if taken else "not verified: --verify asks wsc replay",
    }
    filled = (HERE / "page.html").read_text()
    style = (HERE.parent / "viewer" / "page.css").read_text() + (HERE / "page.css").read_text()
    text = json.dumps(data, separators=(",", ":")).replace("<", "\\u003c")
    safe = title.replace("&", "&amp;").replace("<", "&lt;")
    for mark, part in (("@TITLE@", safe), ("@CSS@", style), ("@SCRIPT@", (HERE / "page.js").read_text()),
                       ("@DATA@", text)):
        filled = filled.replace(mark, part)
    return filled
