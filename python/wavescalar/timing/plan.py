"""Plan timed runs of many jobs on many machines, run them on one computer or several, and gather the results.

`plan` prints one command a line, for each job and each set of wsc-sim's options. Each --do gives sets of options, where
{a,b} stands for a and for b. As with wsc-sweep, each command runs on its own and writes its own result file. The commands
run in any order, on any computer: by `xargs -d '\\n' -n 1 -P 4 sh -c`, by `parallel`, or as a Slurm array. `one` is such
a command. `run` runs the commands of a plan that have no result, one after another in one process; PyPy needs that to get
fast.

`collect` makes a table of all results and reports what needs attention. It draws a panel for each job: --y over --x, with
a line for each value of the options --lines, from the results for which --where holds. `compare` prints a row for each
job: --y for the options --base, and for each other set of options the ratio to that.
"""

from __future__ import annotations

import argparse
import csv
import functools
import hashlib
import itertools
import math
import pathlib
import shlex
import sys
import time
from typing import Any

from wavescalar.cli import Line, add_program, again, whole
from wavescalar.faults import Fault
from wavescalar.programs import needs_program
from wavescalar.timing.figures import Figures
from wavescalar.timing.model import run_of
from wavescalar.timing.parameters import machine_of
from wavescalar.timing.shape import CLASSES
from wavescalar.timing.sim import ask_for, assemblies, parameters_of
from wavescalar.timing.verify import verified
from wavescalar.viewer.gather import FIXED, REST, by_number, columns, faults, keep, picture, results
from wavescalar.viewer.plot import COLOURS, GRID, INK, SOFT, Sheet
from wavescalar.viewer.sweep import lines_of, name_of, options_of

MODULE = "wavescalar.timing.plan"


def plan(line: argparse.Namespace) -> int:
    """Prints the commands."""
    needs_program(line.wsc)
    seen = set()
    for job, pattern in itertools.product(line.jobs, line.do):
        for words in lines_of(pattern):
            result = pathlib.Path(line.out) / name_of(job, ["sim", *words], 1)
            if result in seen:
                raise Fault(f"two lines would write {result}; give the jobs other names")
            seen.add(result)
            if not (line.left and result.exists()):
                here = [*again(MODULE), "one", "--wsc", line.wsc, "--out", str(result)]
                print(shlex.join([*here, job, *words]))
    return 0


def one(line: argparse.Namespace) -> int:
    """Runs one line of a plan, and writes its result."""
    begun, clock = time.strftime("%Y-%m-%dT%H:%M:%SZ", time.gmtime()), time.perf_counter()
    told = ask_for().parse_args(["--wsc", line.wsc, line.job, *line.words])
    run = run_of(assemblies(told), machine_of(told.machine, parameters_of(told)), told.budget)
    figures = Figures(run)
    wrong = verified(line.wsc, run) if told.verify else []
    facts = {name.replace(" ", "-"): value for name, value in figures.facts().items()}
    facts |= {f"path-{part.replace(' ', '-')}": cycles for part, cycles in figures.path.parts.items()}
    facts |= {f"operands-{name}": many for name, many in zip(CLASSES, figures.operands)}
    printed = [word for chain in run.chains for word in chain.printed]
    words = "\n".join(map(str, printed))
    result = {
        "job": pathlib.Path(line.job).stem, "command": "sim",
        "options": {"machine": told.machine, **options_of(line.words)},
        "status": 3 if wrong else 0, "end": "; ".join(wrong) or figures.end,
        "wall": round(time.perf_counter() - clock, 6), "numbers": facts, "words": len(printed),
        "digest": hashlib.sha256(words.encode()).hexdigest()[:16], "begun": begun, "line": line.words,
    }
    keep(result, pathlib.Path(line.out), line.wsc)
    return 0


def run(line: argparse.Namespace) -> int:
    """Runs the lines of a plan that have no result."""
    for told in pathlib.Path(line.plan).read_text().splitlines():
        words = shlex.split(told)
        front = [*again(MODULE), "one"]
        if words[: len(front)] != front:
            raise Fault(f"{line.plan} is no plan that was made here: {told}")
        each = lines().parse_args(words[len(front) - 1 :])
        if not pathlib.Path(each.out).exists():
            one(each)
    return 0


def chosen(rows: list[dict[str, Any]], line: argparse.Namespace) -> list[dict[str, Any]]:
    """The rows of a picture, with no more columns than it needs."""
    wanted = dict(pair.split("=", 1) for pair in line.where)
    keep = {*FIXED, *REST, "line", line.x, line.y}
    made = []
    for row in rows:
        if all(row.get(key) == value for key, value in wanted.items()) and line.x in row:
            new = {key: value for key, value in row.items() if key in keep}
            new["command"] = " ".join(str(row.get(key, "")) for key in line.lines) or "sim"
            made.append(new)
    return made


def collect(line: argparse.Namespace) -> int:
    """Makes the table and the picture, and says what is to be looked at."""
    rows = results(line.dir)
    if not rows:
        raise Fault(f"no results in {line.dir}")
    if line.csv:
        with open(line.csv, "w", newline="") as out:
            table = csv.DictWriter(out, columns(rows), restval="", lineterminator="\n")
            table.writeheader()
            table.writerows(rows)
    if line.svg:
        pathlib.Path(line.svg).write_text(picture(chosen(rows, line), line.x, line.y, line.title))
    found = faults(rows, line.plan)
    print("\n".join([*found, f"{len(rows)} results, {len(found)} to be looked at"]), file=sys.stderr)
    return 3 if found else 0


def compare(line: argparse.Namespace) -> int:
    """Prints a table: a row for each job, with --y of the line --base, and of each other line its part of that."""
    rows = [row for row in results(line.dir) if row["status"] == 0]
    told = sorted({row["line"] for row in rows}, key=by_number)
    base = shlex.join(shlex.split(line.base))
    others = [it for it in told if it != base and any(word in it for word in line.only or [""])]
    value = {(row["job"], row["line"]): float(row[line.y]) for row in rows}
    names = [" ".join(word.lstrip("-") for word in shlex.split(it) if word != "--verify") for it in others]
    made = [["job", line.y, *names], ["---"] * (len(names) + 2)]
    dots: dict[str, dict[str, float]] = {name: {} for name in names}
    for job in dict.fromkeys(row["job"] for row in rows):
        if (first := value.get((job, base))) is not None:
            for name, it in zip(names, others):
                if (job, it) in value:
                    dots[name][job] = value[job, it] / first
            made.append([job, f"{first:,.0f}", *(f"{dots[name][job]:.2f}" if job in dots[name] else "" for name in names)])
    print("\n".join("| " + " | ".join(cells) + " |" for cells in made))
    if line.svg:
        pathlib.Path(line.svg).write_text(dotted(
            dots, line.title or f"{line.y} beside {line.base}",
            f"{line.y} as a part of those with {line.base}, a dot for each job"))
    return 0


def dotted(dots: dict[str, dict[str, float]], title: str, told: str) -> str:
    """A row for each line of options, with a dot for each job: its part of the base, by powers of two."""
    dots = {name: those for name, those in dots.items() if those}
    every = [part for those in dots.values() for part in those.values()]
    low, high = math.floor(math.log2(min(every))), math.ceil(math.log2(max(every)))
    left, wide, tall = 330, 560, 26
    sheet = Sheet(left + wide + 220, 110 + tall * len(dots), title, (f"{told}; least and most are named",))
    for power in range(low, high + 1):
        at = left + wide * (power - low) / (high - low or 1)
        sheet.line(at, 80, at, 80 + tall * len(dots), SOFT if power == 0 else GRID)
        sheet.text(at, 98 + tall * len(dots), f"{2.0 ** power:g}", 11, SOFT, "middle")
    for row, (name, those) in enumerate(dots.items()):
        middle = 80 + tall * (row + 0.5)
        sheet.text(left - 14, middle + 4, name, 12, INK, "end")
        for part in those.values():
            sheet.dot(left + wide * (math.log2(part) - low) / (high - low or 1), middle, COLOURS[0], 4.0, 0.5)
        least, most = (pick(those, key=lambda job: those[job]) for pick in (min, max))
        sheet.text(left + wide + 14, middle + 4, f"{least} {those[least]:.2f}, {most} {those[most]:.2f}", 11, SOFT)
    return str(sheet.svg())


def lines() -> argparse.ArgumentParser:
    """The line of the program."""
    ask = Line(__doc__)
    kinds = ask.add_subparsers(required=True, metavar="plan|one|run|collect|compare")
    it = kinds.add_parser("plan", help="print the commands")
    it.add_argument("--jobs", metavar="FILE", nargs="+", required=True, help="the jobs or assemblies")
    it.add_argument("--do", metavar="OPTIONS", action="append", required=True,
                    help="options of wsc-sim; {a,b} stands for a and for b; can be repeated")
    it.add_argument("--out", metavar="DIR", default="results", help="the folder of the results (results)")
    add_program(it)
    it.add_argument("--left", action="store_true", help="only the commands without a result")
    it.set_defaults(act=plan)
    it = kinds.add_parser("one", help="run one job, as a command of the plan does")
    add_program(it)
    it.add_argument("--out", metavar="RESULT", required=True, help="the result file")
    it.add_argument("job", metavar="FILE", help="a job or an assembly")
    it.add_argument("words", metavar="WORD", nargs=argparse.REMAINDER, help="options of wsc-sim")
    it.set_defaults(act=one)
    it = kinds.add_parser("run", help="run the commands without a result, in this process")
    it.add_argument("plan", metavar="PLAN", help="a file with what `plan` printed")
    it.set_defaults(act=run)
    it = kinds.add_parser("collect", help="make a table of all results, and a picture")
    it.add_argument("dir", metavar="DIR", help="the folder of the results")
    it.add_argument("--csv", metavar="TABLE", help="a file for the table")
    it.add_argument("--svg", metavar="PICTURE", help="a file for the picture")
    it.add_argument("--x", metavar="OPTION", default="waves", help="the option on the x axis (waves)")
    it.add_argument("--y", metavar="COLUMN", default="cycles", help="the column on the y axis (cycles)")
    it.add_argument("--lines", metavar="OPTION", action="append", default=[], help="draw a line for each value of it")
    it.add_argument("--where", metavar="OPTION=VALUE", action="append", default=[], help="draw only these results")
    it.add_argument("--title", metavar="TEXT", default="", help="the title of the picture")
    it.add_argument("--plan", metavar="FILE", help="the plan, to report which of its commands have no result")
    it.set_defaults(act=collect)
    it = kinds.add_parser("compare", help="print a table of results beside those of one set of options")
    it.add_argument("dir", metavar="DIR", help="the folder of the results")
    it.add_argument("--base", metavar="OPTIONS", required=True, help="the options to compare the others with")
    it.add_argument("--only", metavar="WORD", action="append", help="only sets of options with this word")
    it.add_argument("--y", metavar="COLUMN", default="cycles", help="the column to compare (cycles)")
    it.add_argument("--svg", metavar="PICTURE", help="a file for a picture")
    it.add_argument("--title", metavar="TEXT", default="", help="the title of the picture")
    it.set_defaults(act=compare)
    return ask


def main() -> int:
    line = lines().parse_args()
    return int(line.act(line))


tool = functools.partial(whole, main, images=True)

if __name__ == "__main__":
    sys.exit(tool())
