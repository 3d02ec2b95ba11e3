"""A small sweep: its plan, its lines run by the shell, and what comes of it."""

import csv
import pathlib
import subprocess
import xml.dom.minidom

from tests.asked import want
from tests.places import LIBRARY

JOBS = {
    "sum": "proc main() { var i, s; while (i < 9) { i = i + 1; s = s + i; } print s; }\n%input\n9\n",
    "two": "proc main() { print 1; print 2; }\n",
    "bad": "proc main() { print x; }\n",
}


def sweep(folder: pathlib.Path, *words: str) -> subprocess.CompletedProcess[str]:
    """Calls wsc-sweep in a folder."""
    call = [str(LIBRARY / "wsc-sweep"), *words]
    return subprocess.run(call, cwd=folder, capture_output=True, text=True, check=False)


def test_sweep(wsc: str, tmp_path: pathlib.Path) -> None:
    for name, text in JOBS.items():
        (tmp_path / f"{name}.job").write_text(text)
    given = ["plan", "--wsc", wsc, "--jobs", *(f"{name}.job" for name in JOBS), "--do",
             "run --stats --workers {1,2}", "--do", "exec --workers={1,2} --budget {40,4000}",
             "--repeat", "2"]
    plan = sweep(tmp_path, *given).stdout
    want("lines", len(plan.splitlines()), 3 * (2 + 4) * 2)
    for line in plan.splitlines():
        subprocess.run(["sh", "-c", line], cwd=tmp_path, check=True)
    want("lines left", sweep(tmp_path, *given, "--left").stdout, "")
    gone = tmp_path / "results" / "two.run.stats.workers.1.1.json"
    gone.unlink()
    want("a line left", sweep(tmp_path, *given, "--left").stdout, plan.splitlines()[12] + "\n")
    (tmp_path / "plan").write_text(plan)
    done = sweep(tmp_path, "collect", "results", "--plan", "plan", "--csv", "table", "--svg", "picture")
    told = done.stderr.splitlines()
    # each line of the faulty job, the four of `sum` whose budget is too small, and the one that is gone
    want("told", told[-1], "35 results, 17 to be looked at")
    want("gone", told[-2], "no result: results/two.run.stats.workers.1.1.json")
    rows = list(csv.DictReader((tmp_path / "table").open()))
    want("rows", len(rows), 35)

    def ends(job: str) -> set[tuple[str, str, str]]:
        return {(row["end"], row["status"], row["budget"]) for row in rows if row["job"] == job}

    want("ends of two", ends("two"), {("halt", "0", ""), ("halt", "0", "40"), ("halt", "0", "4000")})
    want("ends of sum", ends("sum"), {("halt", "0", ""), ("budget", "3", "40"), ("halt", "0", "4000")})
    want("ends of bad", {(row["end"], row["status"]) for row in rows if row["job"] == "bad"},
         {("refused 1:21 unknown", "2")})
    want("firings", {row["firings"] for row in rows if row["job"] == "two"}, {"", "6"})
    digests = {row["digest"] for row in rows if row["job"] == "sum" and row["status"] == "0"}
    want("other words of sum", len(digests), 1)
    # all but the faulty job's lines that would read its assembly
    took = [float(row[name]) for row in rows for name in ("wall", "user", "system") if row["wall"]]
    want("times", (min(took) >= 0.0, len(took)), (True, 3 * (35 - 8)))
    want("made by", {(row["wsc"] != "", row["tools"] != "", " Linux, " in row["platform"]) for row in rows}, {(True, True, True)})
    header = (tmp_path / "table").read_text().partition("\n")[0].split(",")
    want("columns that stand twice", [name for name in header if header.count(name) > 1], [])
    xml.dom.minidom.parse(str(tmp_path / "picture"))
