"""The timing model beside the program.

1. On the machine `ideal`, of several sizes and numbers of waves, what a run prints, its firings and its cycles are
   those of `wsc grid --stats`; and its events are those of the viewer's grid, one by one.
2. On machines with parameters at random `wsc replay` takes the events, to the words and the firings of `wsc exec
   --stats`; they keep the machine's rules (rules_check.py); and the parts of the path add up to its cycles.
3. So do runs of several threads, and `wsc multi` prints the words of up to four of them.
4. Tables, pictures, pages, places, traces and a small sweep agree; the events of examples/timing/model.c are those of
   runs, where there is a C compiler; and docs/TIMING.md has the parameters.

What was worked out by hand stands in test_by_hand.py, faults that are put into the model in test_mutants.py. --machines N
is the number of machines for each text whose run isn't long (3), --generated N adds so many jobs of `wsc gen` (2), --seed N
begins the numbers (1).
"""

from __future__ import annotations

import functools
import json
import pathlib
import random
import re
import shutil
import subprocess
import xml.dom.minidom
from typing import Any

import pytest

from tests.asked import want
from tests.places import EXAMPLES, JOBS, LIBRARY, ROOT, WSC
from tests.timing.rules_check import broken, timed
from tests.timing.timed_page import tried
from wavescalar.cli import given
from wavescalar.faults import Fault
from wavescalar.programs import assembly_of, call
from wavescalar.timing.figures import Figures
from wavescalar.timing.kernel_plots import PICTURE, drawn
from wavescalar.timing.model import run_of
from wavescalar.timing.parameters import HOMES, PARAMETERS, POLICIES, THREADS, Values, machine_of, table as parameters
from wavescalar.timing.replay_check import judged
from wavescalar.timing.report import table
from wavescalar.timing.verify import answer_of, has_trace, verified
from wavescalar.viewer.grid import recorded

FILES = [file for folder in (*JOBS, EXAMPLES / "timing") for file in sorted(folder.glob("*.*"))
         if file.suffix in (".job", ".asm")]
GRIDS = [(elements, waves) for elements in (1, 2, 4, 16, 64) for waves in (1, 2, 4)]
# firings up to which viewer/grid_model.py is asked, which is slow; above which a run is made on a fourth of the
# grids and on one machine at random; and up to which rules_check.py is asked
SHORT, LONG, MIDDLE = 300, 2000, 6000


def in_general(program: str, text: str, sizes: list[tuple[int, int]]) -> list[str]:
    """What is wrong with the machine `ideal` of these sizes."""
    found = []
    for elements, waves in sizes:
        run = run_of(text, machine_of("ideal", {"elements": elements, "waves": waves}))
        line = ["grid", "--elements", str(elements), "--waves", str(waves), "--stats"]
        status, answer, _ = call(program, line, text)
        if status == 3:
            continue
        made = answer_of(run) + (f"cycles {Figures(run).cycles}\n" if run.chains[0].fault is None else "")
        if made != answer:
            found.append(f"wsc {' '.join(line)}: {answer!r} and not {made!r}")
        if run.fired <= SHORT and list(timed(run)) != recorded(program, text, elements, waves).events:
            found.append(f"ideal {elements} {waves}: other events than those of the grid")
    return found


def any_machine(dice: random.Random) -> Values:
    """A machine at random."""
    small: dict[str, Any] = {
        "clusters": (1, 1, 2, 3, 4, 6), "columns": (0, 0, 1, 2, 3), "domains": (1, 2, 3), "pods": (1, 2, 3),
        "elements": (1, 2, 3), "waves": (1, 2, 3, 4, 8, 100), "buffer.homes": HOMES, "element.ways": (1, 2, 4),
        "placement.policy": [name for name in POLICIES if name != "file"], "placement.fill": (1, 2, 4, 9),
        "placement.seed": range(100), "placement.threads": THREADS, "cache.ways": (1, 2, 4),
        "cache.line": (1, 2, 4, 16), "cache.sets": (0, 1, 2, 4, 16), "buffer.issues": (0, 1, 1, 2),
        "element.instructions": (0, 0, 1, 2, 8), "element.inputs": (0, 0, 1, 2), "buffer.queues": (0, 0, 0, 1, 2, 16),
    }
    widths = dice.choice(((0,), (0,), (1,), (0, 1, 2)))
    small |= {name: widths for name in PARAMETERS if name.startswith("width.")}
    made: Values = {}
    for name, (value, least, _, _) in PARAMETERS.items():
        if name in small:
            made[name] = dice.choice(small[name])
        elif least is None:
            made[name] = dice.choice((True, False))
        elif name.startswith("operations."):
            made[name] = dice.choice((value, value, value, 1, 2, 7))
        elif not isinstance(value, str):
            made[name] = max(least, dice.choice((0, 1, 2, 3, 5, 9, 20)))
    made["element.entries"] = made["element.ways"] * dice.choice((0, 0, 1, 2, 4))
    return machine_of("", made)


def on_any(program: str, texts: list[str], seed: str, many: int) -> list[str]:
    """What is wrong on machines at random, a thread for each text."""
    found = []
    for number in range(many):
        machine = any_machine(random.Random(f"{seed} {number}"))
        run = run_of(texts, machine)
        path = Figures(run).path
        wrong = verified(program, run)
        if run.fired <= MIDDLE and has_trace(run):
            wrong += broken(run, machine)
        if sum(path.parts.values()) != path.end or path.end != run.record.cycles or min(path.parts.values()) < 0:
            wrong.append(f"the path has {path.parts} and not {run.record.cycles}")
        found += [f"machine {seed} {number}: {it}" for it in wrong[:3]]
    return found


@functools.lru_cache(maxsize=None)
def sound(program: str, generated: int) -> dict[str, str]:
    """The assemblies of all files that are sound, and of so many jobs of `wsc gen`, by their names."""
    found: dict[str, str] = {}
    for file in FILES:
        try:
            text = assembly_of(program, given(file))
        except Fault:
            continue
        if call(program, ["check"], text)[0] == 0:
            found[str(file.relative_to(ROOT))] = text
    for number in range(generated):
        found[f"gen {number}"] = assembly_of(program, call(program, ["gen", str(number)], "")[1])
    return found


def pytest_generate_tests(metafunc: pytest.Metafunc) -> None:
    """A case for each text."""
    if "text_name" in metafunc.fixturenames:
        metafunc.parametrize("text_name", sound(WSC, metafunc.config.getoption("--generated")))


class Trial:
    """A text, those before it, and how much of it is tried."""

    def __init__(self, program: str, name: str, config: pytest.Config) -> None:
        texts = sound(program, config.getoption("--generated"))
        names = list(texts)
        at = names.index(name)
        self.text, self.seed = texts[name], f"{config.getoption('--seed')} {name.rpartition('/')[2]}"
        # of long runs every fourth size, another fourth for each text
        long = run_of(self.text, machine_of("ideal"), LONG + 1).fired > LONG
        self.sizes, self.machines = GRIDS[at % 4 :: 4] if long else GRIDS, 1 if long else config.getoption("--machines")
        # threads: this text, those before it, and this one again
        self.threads = [*(texts[it] for it in names[max(at - 2, 0) : at + 1][::-1]), self.text]


def test_ideal(wsc: str, text_name: str, pytestconfig: pytest.Config) -> None:
    trial = Trial(wsc, text_name, pytestconfig)
    assert in_general(wsc, trial.text, trial.sizes) == []


def test_any_machine(wsc: str, text_name: str, pytestconfig: pytest.Config) -> None:
    trial = Trial(wsc, text_name, pytestconfig)
    assert on_any(wsc, [trial.text], trial.seed, trial.machines) == []


def test_threads(wsc: str, text_name: str, pytestconfig: pytest.Config) -> None:
    trial = Trial(wsc, text_name, pytestconfig)
    assert on_any(wsc, trial.threads, f"{trial.seed} threads", 1) == []


def test_multi(wsc: str) -> None:
    """The words of up to four threads are those of `wsc multi`."""
    job = (EXAMPLES / "sorting.job").read_text()
    image, wanted = assembly_of(wsc, job), call(wsc, ["multi"], "%job\n".join([job] * 3))[1]
    run = run_of([image] * 3, machine_of("four-clusters", {"buffer.homes": "table", "width.between": 1}))
    words = "".join(f"{line}\n" for line in wanted.splitlines() if line.isdecimal())
    assert words == "".join(f"{word}\n" for chain in run.chains for word in chain.printed)


@pytest.mark.parametrize("name", ("sum", "calls", "past"))
def test_own_model(wsc: str, tmp_path: pathlib.Path, name: str) -> None:
    """The model in C gives the events of a job another order, which wsc takes; and the trace of a run that begins with
    its second event isn't one."""
    compiler = shutil.which("cc") or shutil.which("clang")
    if not compiler:
        pytest.skip("no C compiler (Debian: clang)")
    own = tmp_path / "model"
    subprocess.run([compiler, "-O1", "-Wall", "-Wextra", "-Werror", "-o", own, EXAMPLES / "timing" / "model.c"], check=True)
    _, trace, _ = call(wsc, ["trace"], assembly_of(wsc, (EXAMPLES / f"{name}.job").read_text()))
    _, made, _ = call(str(own), [], trace)
    holds, said = judged(wsc, made)
    assert holds and "cycles by its comments" in said and made.count("\nmatch") == trace.count("\nmatch"), said
    if name == "sum":
        assert said in (ROOT / "docs" / "TIMING.md").read_text(), "docs/TIMING.md has another answer"
    lacks, said = judged(wsc, re.sub(r"(%trace\n)match.*\n", r"\1", trace))
    assert not lacks and ("a token that isn't on its way" in said or "ends as open" in said), said


def test_sums(wsc: str) -> None:
    """The rows of a table add up to the figures of the run."""
    run = run_of(assembly_of(wsc, (EXAMPLES / "sorting.job").read_text()), machine_of("far", {"clusters": 2, "element.inputs": 1}))
    figures = Figures(run)
    rows = list(table(figures))[1:]
    f = figures.facts()

    def total(of: str, what: str) -> int:
        return sum(int(row[3]) for row in rows if row[0] == of and row[2] == what)

    for of, what, wanted in (
        ("element", "firings", f["firings"]), ("cycle", "firings", f["firings"]), ("cycle", "issues", f["issues"]),
        ("request", "issues", f["issues"]), ("critical path", "cycles", f["cycles"]),
        ("element", "matching misses", f["matching misses"]),
        # a token that misses, or is put off, comes once more
        ("cycle", "tokens", f["operands"] + len(run.flat.start()) + f["matching misses"] + f["put off"]),
    ):
        want(f"table: {what} of each {of}", total(of, what), wanted)


class Commands:
    """Calls commands in a folder, for one job."""

    def __init__(self, program: str, folder: pathlib.Path) -> None:
        self.folder, self.wsc = folder, ["--wsc", program]
        self.job = str(EXAMPLES / "sorting.job")

    def do(self, *words: str | pathlib.Path, stdin: str = "") -> subprocess.CompletedProcess[str]:
        return subprocess.run(words, cwd=self.folder, capture_output=True, text=True, check=False, input=stdin)

    def sim(self, *words: str) -> subprocess.CompletedProcess[str]:
        return self.do(LIBRARY / "wsc-sim", *self.wsc, self.job, *words)


@pytest.fixture
def commands(wsc: str, tmp_path: pathlib.Path) -> Commands:
    return Commands(wsc, tmp_path)


def test_files(wsc: str, commands: Commands) -> None:
    """What a run writes: a picture, a trace, places and a page."""
    folder = commands.folder
    told = commands.sim("--machine", "four-clusters", "--verify", "--svg", "picture", "--trace", "trace", "--places", "lie",
                        "--page", "page.html")
    want("wsc-sim " + told.stderr, (told.returncode, "verified" in told.stdout), (0, True))
    xml.dom.minidom.parse(str(folder / "picture"))
    want("the trace", commands.do(wsc, "replay", stdin=(folder / "trace").read_text()).returncode, 0)
    shown = json.loads(re.findall(r'id="data">(.*)</script>', (folder / "page.html").read_text())[0])
    counts = [int(many) for many in re.findall(r"(\d+) (?:firings|memory operations)", told.stdout)]
    want("the page's events", (len(shown["events"]), shown["bounds"][-1][0]), (sum(counts), shown["all"]))
    lines = [commands.sim("--machine", "four-clusters", "--stats", *more).stdout
             for more in ((), ("--placement-policy", "file", "--placement-file", str(folder / "lie")))]
    want("cycles with the same places", (lines[0], "cycles" in lines[0]), (lines[1], True))


@pytest.mark.usefixtures("chromium")
def test_page(commands: Commands) -> None:
    commands.sim("--machine", "four-clusters", "--page", "page.html")
    tried(commands.folder / "page.html")


def test_four_threads(wsc: str, commands: Commands) -> None:
    told = commands.sim(commands.job, "--threads", "2", "--verify", "--trace", "each", "--svg", "four")
    want("four threads: " + told.stderr, "4 traces, a thread each" in told.stdout, True)
    want("a trace of four", commands.do(wsc, "replay", stdin=(commands.folder / "each.4").read_text()).returncode, 0)


def test_store_queues(commands: Commands) -> None:
    told = commands.sim("--buffer-queues", "4", "--verify")
    want("partial store queues: " + told.stderr, "wsc replay isn't asked" in told.stdout, True)
    want("a trace of late stores", commands.sim("--buffer-queues", "4", "--trace", "none").returncode, 2)


def test_pypy(commands: Commands) -> None:
    pypy = shutil.which("pypy3")
    if not pypy:
        pytest.skip("no PyPy (Debian: pypy3)")
    words = [commands.job, "--machine", "four-clusters", "--stats"]
    told = commands.do(pypy, LIBRARY / "wsc-sim", *commands.wsc, *words)
    assert told.stdout == commands.sim(*words[1:]).stdout, told.stderr


@pytest.mark.parametrize("words", ("--machine none", "--waves 0"))
def test_refused(commands: Commands, words: str) -> None:
    """A machine that isn't there, a parameter out of range."""
    assert commands.sim(*words.split()).returncode == 2


def test_plan(commands: Commands) -> None:
    options, plan = "--verify --waves {1,2} --clusters {1,4}", LIBRARY / "wsc-plan"
    told = commands.do(plan, "plan", *commands.wsc, "--jobs", commands.job, "--do", options).stdout
    want("lines of a plan", len(told.splitlines()), 4)
    for line in told.splitlines():
        commands.do("sh", "-c", line)
    done = commands.do(plan, "collect", "results", "--csv", "table", "--svg", "sweep", "--x", "waves", "--lines", "clusters")
    want("results of a plan", done.stderr, "4 results, 0 to be looked at\n")
    xml.dom.minidom.parse(str(commands.folder / "sweep"))


def test_docs(commands: Commands) -> None:
    """docs/TIMING.md has the parameters, the first run and the picture of today."""
    page = re.sub(r"^    ", "", (ROOT / "docs" / "TIMING.md").read_text(), flags=re.M)
    assert parameters() in page
    told = commands.do(LIBRARY / "wsc-sim", *commands.wsc, EXAMPLES / "matrix.job", "--machine", "one-cluster", "--verify")
    assert told.stdout in page
    assert PICTURE.read_text() == drawn(), "the picture of the kernels has other numbers"
