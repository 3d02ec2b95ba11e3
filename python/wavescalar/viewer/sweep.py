"""Plan runs of many jobs with many options, run them on one computer or several, and gather the results.

`plan` prints one command a line, for each job and each command line of `wsc`. Each --do gives command lines, where {a,b}
stands for a and for b. Each printed command runs on its own and writes its own result file. So the commands can run in any
order, on any computer, and again: by `xargs -d '\\n' -n 1 -P 4 sh -c`, by `parallel`, or as a Slurm array. With --left,
`plan` prints only the commands without a result.

`one` gives a job to the program and measures the run. A command that reads an assembly gets the job's; compiling it isn't
measured. The result file gets its name when it is complete.

`collect` makes a table with a row for each result, and draws the medians. It reports runs that failed, runs of one job
that printed different words, and commands of the plan without a result.
"""

from __future__ import annotations

import argparse
import functools
import hashlib
import itertools
import pathlib
import re
import shlex
import sys
import time

from wavescalar.cli import Line, add_program, again, given, whole
from wavescalar.faults import Fault
from wavescalar.numbered import kind_of
from wavescalar.programs import Measured, Stream, call, measured, needs_program, with_input
from wavescalar.viewer.gather import collect, keep

MODULE = "wavescalar.viewer.sweep"
READ_JOBS = ("run", "plain", "format", "compile", "multi")


def lines_of(pattern: str) -> list[list[str]]:
    """All lines that a pattern with {a,b} stands for."""
    parts = re.split(r"\{([^}]*)\}", pattern)
    choices = [[part] if at % 2 == 0 else part.split(",") for at, part in enumerate(parts)]
    return [shlex.split("".join(choice)) for choice in itertools.product(*choices)]


def name_of(job: str, words: list[str], repeat: int) -> str:
    """The name of a result."""
    told = ".".join(re.sub(r"[^A-Za-z0-9]+", "-", word).strip("-") for word in words)
    return f"{pathlib.Path(job).stem}.{told}.{repeat}.json"


def plan(line: argparse.Namespace) -> int:
    """Prints the commands."""
    needs_program(line.wsc)
    seen = set()
    for job, pattern, repeat in itertools.product(line.jobs, line.do, range(1, line.repeat + 1)):
        for words in lines_of(pattern):
            result = pathlib.Path(line.out) / name_of(job, words, repeat)
            if result in seen:
                raise Fault(f"two lines would write {result}; give the jobs other names")
            seen.add(result)
            if not (line.left and result.exists()):
                here = [*again(MODULE), "one", "--wsc", line.wsc, "--out", str(result)]
                print(shlex.join([*here, "--limit", str(line.limit), job, *words]))
    return 0


def figures_of(it: Measured) -> dict[str, float]:
    """What a measured call took, as a result keeps it."""
    return {"wall": round(it.wall, 6), "user": round(it.user, 6), "system": round(it.system, 6),
            "processor": round(it.user + it.system, 6), "kilobytes": it.kilobytes}


def options_of(words: list[str]) -> dict[str, str]:
    """The options that have a number, by their names."""
    parted = [part for word in words for part in word.split("=")]
    pairs = zip(parted, parted[1:])
    return {a.lstrip("-"): b for a, b in pairs if a.startswith("--") and not b.startswith("-")}


def one(line: argparse.Namespace) -> int:
    """Runs one line of a plan, and writes its result."""
    text, status = given(line.job), 0
    if line.words[0] not in READ_JOBS and kind_of(text) == "job":
        status, made, _ = call(line.wsc, ["compile"], text)
        text = made if status else with_input(made, text)
    begun = time.strftime("%Y-%m-%dT%H:%M:%SZ", time.gmtime())
    answer, took = text.encode(errors="surrogateescape"), dict[str, float]()
    if not status:
        ran = measured([line.wsc, *line.words], answer, Stream.DROPPED, line.limit)
        status, answer, took = ran.status, ran.answer, figures_of(ran)
    told = answer.decode(errors="replace").splitlines()
    words = [text for text in told if text.isdigit()]
    ends = [text for text in told if re.match(r"(halt|budget|turns)$|(fault|port|refused) ", text)]
    numbers = [text.split(" ") for text in told if re.fullmatch(r"(?!port )[a-z]+ \d+", text)]
    result = {
        "job": pathlib.Path(line.job).stem, "command": line.words[0], "options": options_of(line.words[1:]),
        "status": status, "end": ends[0] if ends else "", **took,
        "numbers": {name: int(value) for name, value in numbers},
        "words": len(words), "digest": hashlib.sha256("\n".join(words).encode()).hexdigest()[:16],
        "begun": begun, "line": line.words,
    }
    keep(result, pathlib.Path(line.out), line.wsc)
    return 0


def main() -> int:
    ask = Line(__doc__)
    kinds = ask.add_subparsers(required=True, metavar="plan|one|collect")
    it = kinds.add_parser("plan", help="print the commands")
    it.add_argument("--jobs", metavar="FILE", nargs="+", required=True, help="the jobs")
    it.add_argument("--do", metavar="LINE", action="append", required=True,
                    help="a command line of wsc; {a,b} stands for a and for b; can be repeated")
    it.add_argument("--repeat", metavar="N", type=int, default=1, help="run each command line N times (1)")
    it.add_argument("--out", metavar="DIR", default="results", help="the folder of the results (results)")
    add_program(it)
    it.add_argument("--limit", metavar="SECONDS", type=float, default=600.0,
                    help="end a run after this time (600)")
    it.add_argument("--left", action="store_true", help="only the commands without a result")
    it.set_defaults(act=plan)
    it = kinds.add_parser("one", help="run and measure one job, as a command of the plan does")
    add_program(it)
    it.add_argument("--out", metavar="RESULT", required=True, help="the result file")
    it.add_argument("--limit", metavar="SECONDS", type=float, default=600.0, help="end the run after this time (600)")
    it.add_argument("job", metavar="FILE", help="the job")
    it.add_argument("words", metavar="WORD", nargs=argparse.REMAINDER, help="a command line of wsc")
    it.set_defaults(act=one)
    it = kinds.add_parser("collect", help="make a table of all results, and a picture")
    it.add_argument("dir", metavar="DIR", help="the folder of the results")
    it.add_argument("--csv", metavar="TABLE", help="a file for the table; else standard output")
    it.add_argument("--svg", metavar="PICTURE", help="a file for the picture")
    it.add_argument("--x", metavar="OPTION", default="workers", help="the option on the x axis (workers)")
    it.add_argument("--y", metavar="COLUMN", default="wall", help="the column on the y axis (wall)")
    it.add_argument("--title", metavar="TEXT", default="", help="the title of the picture")
    it.add_argument("--plan", metavar="FILE", help="the plan, to report which of its commands have no result")
    it.set_defaults(act=collect)
    line = ask.parse_args()
    return int(line.act(line))


tool = functools.partial(whole, main)

if __name__ == "__main__":
    sys.exit(tool())
