"""Reads the result files of a sweep: a table, what is wrong in them, and a picture."""

from __future__ import annotations

import argparse
import csv
import json
import os
import pathlib
import re
import shlex
import socket
import statistics
import sys
from typing import Any

from wavescalar.faults import Fault
from wavescalar.versions import of_result
from wavescalar.viewer.plot import COLOURS, SOFT, Panel, Sheet, spread

# A result, by the names of its columns.
Row = dict[str, Any]
FIXED = ["job", "command"]
# What a status says where no line of the answer does.
UNSAID = {1: "(no line of wsc)", 4: "(not read)", 5: "(not written)", 7: "(no memory)", 70: "(no program)"}
REST = ["status", "end", "wall", "user", "system", "processor", "kilobytes", "words", "digest", "host",
        "processors", "wsc", "tools", "platform", "begun"]
UNITS = {"wall": "seconds by the clock", "user": "seconds of processor in the program",
         "system": "seconds of processor in the system", "processor": "seconds of processor",
         "kilobytes": "kilobytes of memory at most"}


def processors() -> int:
    """How many processors this process may use; PyPy knows those of the machine alone."""
    if hasattr(os, "sched_getaffinity"):
        return len(os.sched_getaffinity(0))
    return os.cpu_count() or 1


def keep(result: Row, path: pathlib.Path, program: str) -> None:
    """Writes a result, with what made it and where: the file appears under its name when it is whole."""
    made = result | {"host": socket.gethostname(), "processors": processors(), **of_result(program)}
    path.parent.mkdir(parents=True, exist_ok=True)
    part = path.with_suffix(f".part{os.getpid()}")
    part.write_text(json.dumps(made, indent=1) + "\n")
    part.replace(path)


def results(folder: str) -> list[Row]:
    """The results, in the order of their names, each a row by the names of its columns."""
    rows = []
    for file in sorted(pathlib.Path(folder).glob("*.json")):
        try:
            one = json.loads(file.read_text())
            more = one.pop("options") | one.pop("numbers")
            rows.append({**one, **more, "line": shlex.join(one["line"])})
        except (AttributeError, KeyError, TypeError, ValueError) as fault:
            raise Fault(f"{file} is no result of a run") from fault
    return rows


def columns(rows: list[Row]) -> list[str]:
    """The names of the table's columns: options and numbers of the answers stand behind the command."""
    known = {*FIXED, *REST, "line"}
    more = list(dict.fromkeys(name for row in rows for name in row if name not in known))
    return [*FIXED, *more, *REST, "line"]


def faults(rows: list[Row], plan: str | None) -> list[str]:
    """What is to be looked at."""
    bad = [row for row in rows if row["status"]]

    def said(row: Row) -> str:
        return str(row["end"] or UNSAID.get(row["status"], ""))

    out = [f"{row['job']}: {row['line']} ended with status {row['status']} {said(row)}".rstrip() for row in bad]
    for job in dict.fromkeys(row["job"] for row in rows):
        digests = {row["digest"] for row in rows if row["job"] == job and row["end"] == "halt"}
        if len(digests) > 1:
            out.append(f"{job}: its runs printed other words")
    if plan:
        wanted = [shlex.split(line) for line in pathlib.Path(plan).read_text().splitlines() if line]
        lack = [words[words.index("--out") + 1] for words in wanted]
        out += [f"no result: {name}" for name in lack if not pathlib.Path(name).exists()]
    return out


def number(text: Any) -> float:
    """A number as a file has it."""
    return float(text) if "." in str(text) else int(text)


def by_number(name: str) -> list[Any]:
    """A key by which `waves 2` stands before `waves 16`."""
    return [int(part) if part.isdigit() else part for part in re.split(r"(\d+)", name)]


def picture(rows: list[Row], x: str, y: str, title: str | None) -> str:
    """A panel for each job; in it a line for each line of `wsc` but for the option that runs along x."""
    rows = [row for row in rows if x in row and y in row and row["status"] == 0]
    if not rows:
        raise Fault(f"no result has both {x} and {y}")
    told = {*FIXED, *REST, x, y, "line", "firings", "turns", "cycles"}
    other = [name for name in columns(rows) if name not in told]
    for row in rows:
        row["name"] = " ".join([row["command"], *(f"{key} {row[key]}" for key in other if key in row)])
    jobs, names = (list(dict.fromkeys(row[key] for row in rows)) for key in ("job", "name"))
    names.sort(key=by_number)
    places = sorted({number(row[x]) for row in rows})
    across = min(len(jobs), 4)
    lines, most = heads(rows, x, y, names)
    sheet = Sheet(70 + 290 * across, 100 + 270 * -(-len(jobs) // across), title or f"{y} by {x}", lines)
    for at, job in enumerate(jobs):
        here = [row for row in rows if row["job"] == job]
        box = (70 + 290 * (at % across), 130 + 270 * (at // across), 225 if len(names) == 1 else 175, 175)
        top = max(number(row[y]) for row in here)
        panel = Panel(sheet, box, job, x, low=-0.3, high=len(places) - 0.7, top=top, whole=False)
        for k, place in enumerate(places):
            sheet.text(panel.at_x(k), panel.y + panel.h + 17, place, 11, SOFT, "middle")
        curves(sheet, panel, here, (x, y), places, names, most)
    return sheet.svg()


def heads(rows: list[Row], x: str, y: str, names: list[str]) -> tuple[tuple[str, str], int]:
    """The lines below the title, and how often a point was measured."""
    count = len({(row["job"], row["name"], row[x]) for row in rows})
    most = max(sum(row["line"] == one["line"] and row["job"] == one["job"] for row in rows) for one in rows)
    hosts = len({row["host"] for row in rows})
    lines = (
        f"{names[0] + ': ' if len(names) == 1 else ''}{UNITS.get(y, y)}"
        + (f"; dots: single runs, lines: medians of {most}" if most > 1 else ""),
        f"{len(rows)} runs of {count} points, on {hosts} machine{'s' if hosts > 1 else ''}",
    )
    return lines, most


def curves(sheet: Sheet, panel: Panel, rows: list[Row], axes: tuple[str, str], places: list[float], names: list[str],
           most: int) -> None:
    """The curves of a panel, one for each name, with the names at their ends where there are several."""
    x, y = axes
    ends: list[tuple[tuple[float, float], str, str]] = []
    for colour, told in zip(COLOURS, names):
        mine, line = [row for row in rows if row["name"] == told], []
        for k, place in enumerate(places):
            values = [number(row[y]) for row in mine if number(row[x]) == place]
            for value in values if most > 1 else []:
                sheet.dot(panel.at_x(k), panel.at_y(value), colour, 2.0, 0.45)
            if values:
                line.append((panel.at_x(k), panel.at_y(statistics.median(values))))
        if line:
            sheet.path(line, colour, 2)
            ends += [(line[-1], told, colour)] if len(names) > 1 else []
    for y_at, ((x_at, _), told, colour) in zip(spread([end[0][1] for end in ends], 14), ends):
        sheet.text(x_at + 9, y_at + 4, told, 11, colour)


def collect(line: argparse.Namespace) -> int:
    """Makes the table and the picture, and says what is to be looked at."""
    rows = results(line.dir)
    if not rows:
        raise Fault(f"no results in {line.dir}")
    out = open(line.csv, "w", newline="") if line.csv else sys.stdout
    table = csv.DictWriter(out, columns(rows), restval="", lineterminator="\n")
    table.writeheader()
    table.writerows(rows)
    if line.svg:
        pathlib.Path(line.svg).write_text(picture(rows, line.x, line.y, line.title))
    found = faults(rows, line.plan)
    told = [*found, f"{len(rows)} results, {len(found)} to be looked at"]
    print("\n".join(told), file=sys.stderr)
    return 3 if found else 0
