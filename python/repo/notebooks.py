"""Executes the notebooks, and compares what comes with the outputs that they keep.

    python/run repo.notebooks [NOTEBOOK ..]            all of examples/notebooks, where none is named
    python/run repo.notebooks --update [NOTEBOOK ..]   writes the outputs that come in the place of those that are kept

A notebook is executed twice: as it is, where no cell may end with an error and each exercise has to be *not yet* solved;
and with the folded solutions in the place of the exercises, where each check has to say *Solved*. WSC and WSL name the
programs, else those of the repository are taken. It wants Jupyter (Debian: python3-nbconvert, python3-ipykernel). Pages
of the notebooks, for those who have none, are made by repo.notebook_pages.
"""

from __future__ import annotations

import argparse
import difflib
import json
import os
import pathlib
import re
import subprocess
import sys
import tempfile
from typing import Any

from wavescalar.programs import ROOT

HERE = ROOT / "examples" / "notebooks"
SECONDS = 600  # by the clock, of a cell
MOST_SECONDS = 60  # of processor, of a notebook with its kernel
# The page in a frame: of it is compared that it is there. It has the scripts of the viewer, which have tests of their own.
FRAME = re.compile(r'<iframe srcdoc="[^"]*"')
FENCED = re.compile(r"```\n(.*?)```", re.DOTALL)
Cell = dict[str, Any]
Notebook = dict[str, Any]


class Wrong(Exception):
    """What a notebook does that it shouldn't."""


def with_jupyter() -> str | None:
    """The first Python that can execute notebooks; nothing where none can."""
    for python in (sys.executable, "/usr/bin/python3"):
        if subprocess.run([python, "-c", "import nbconvert, ipykernel"], capture_output=True, check=False).returncode == 0:
            return python
    return None


def convert(file: pathlib.Path, into: pathlib.Path, *words: str) -> pathlib.Path:
    """Calls nbconvert on a file: what it has written. The cells run where it stands."""
    python = with_jupyter()
    if python is None:
        raise Wrong("there is no Jupyter (Debian: python3-nbconvert, python3-ipykernel)")
    paths = os.pathsep.join(filter(None, (str(ROOT / "python"), os.environ.get("PYTHONPATH"))))
    environment = {**os.environ, "PYTHONPATH": paths, "PYDEVD_DISABLE_FILE_VALIDATION": "1"}
    done = subprocess.run([python, "-m", "nbconvert", *words, "--output-dir", str(into), str(file)], cwd=file.parent,
                          env=environment, capture_output=True, text=True, check=False)
    if done.returncode:
        raise Wrong(f"{file.name}: nbconvert ended with status {done.returncode}:\n{done.stderr[-2000:]}")
    return into / file.name


def executed(notebook: Notebook, name: str) -> Notebook:
    """The notebook with what its cells answer; an error of a cell is an output."""
    with tempfile.TemporaryDirectory(prefix="wsc-notebooks-") as folder:
        # the cells run where the file stands, from which their paths count: beside links to the other examples
        room = pathlib.Path(folder)
        for it in HERE.parent.iterdir():
            if it != HERE:
                (room / it.name).symlink_to(it)
        file = room / HERE.name / name
        file.parent.mkdir()
        file.write_text(json.dumps(notebook))
        made = convert(file, room / "made", "--to", "notebook", "--execute", "--allow-errors",
                       f"--ExecutePreprocessor.timeout={SECONDS}", f"--ExecutePreprocessor.startup_timeout={SECONDS}")
        return dict(json.loads(made.read_text()))


def text_of(part: Any) -> str:
    """A text that a notebook may hold as lines."""
    return "".join(part) if isinstance(part, list) else str(part)


def shown(cell: Cell) -> list[str]:
    """What is compared of the outputs of a cell, as lines."""
    lines: list[str] = []
    for output in cell.get("outputs", []):
        if output["output_type"] == "stream":
            lines += [f"[{output['name']}]", *text_of(output["text"]).splitlines()]
        elif output["output_type"] == "error":
            lines += ["[error]", output["ename"], output["evalue"]]
        else:
            for kind, part in sorted(output["data"].items()):
                lines += [f"[{kind}]", *FRAME.sub("<iframe", text_of(part)).splitlines()]
    return lines


def tagged(notebook: Notebook, kind: str) -> dict[str, Cell]:
    """The cells with a tag `KIND:NAME`, by name."""
    found = {}
    for cell in notebook["cells"]:
        for tag in cell["metadata"].get("tags", []):
            if tag.startswith(f"{kind}:"):
                found[tag.partition(":")[2]] = cell
    return found


def errors(notebook: Notebook, name: str) -> None:
    """Raises Wrong where a cell ended with an error."""
    for cell in notebook["cells"]:
        for output in cell.get("outputs", []):
            if output["output_type"] == "error":
                raise Wrong(f"{name}: {text_of(cell['source']).splitlines()[0]}: {output['ename']}: {output['evalue']}")


def verdicts(notebook: Notebook, name: str, wanted: str) -> None:
    """Raises Wrong where a check says something else than this."""
    for exercise, cell in tagged(notebook, "check").items():
        said = next((text_of(it["data"].get("text/plain", "")) for it in cell["outputs"] if "data" in it), "nothing")
        if not said.startswith(wanted):
            raise Wrong(f"{name}: exercise {exercise}: `{wanted}` is wanted, and the check says: {said}")


def compare(kept: Notebook, come: Notebook, name: str) -> None:
    """Raises Wrong where the outputs differ."""
    for old, new in zip(kept["cells"], come["cells"]):
        one, other = shown(old), shown(new)
        if one != other:
            lines = list(difflib.unified_diff(one, other, "kept", "came", lineterm="", n=1))[:30]
            told = "\n".join(line[:200] for line in lines)
            raise Wrong(f"{name}: the output of a cell differs: {text_of(old['source']).splitlines()[0]}\n{told}")


def solved(notebook: Notebook, name: str) -> Notebook:
    """The notebook with the folded solutions in the place of the exercises."""
    made: Notebook = json.loads(json.dumps(notebook))
    exercises, solutions = tagged(made, "exercise"), tagged(made, "solution")
    if not exercises.keys() == solutions.keys() == tagged(made, "check").keys():
        raise Wrong(f"{name}: exercises, checks and solutions don't have the same names")
    for exercise, cell in exercises.items():
        found = FENCED.search(text_of(solutions[exercise]["source"]))
        if not found:
            raise Wrong(f"{name}: the solution of {exercise} has no text between ``` and ```")
        cell["source"] = found[1].rstrip("\n")
    return made


def kept_form(notebook: Notebook) -> str:
    """The text of a notebook as it is kept: without times, and with its texts in lines."""
    for cell in notebook["cells"]:
        cell["metadata"].pop("execution", None)
    # which version of Python ran is no part of it
    notebook["metadata"]["language_info"] = {"name": "python"}
    return json.dumps(notebook, indent=1, ensure_ascii=False) + "\n"


def timed(notebook: Notebook, name: str) -> tuple[Notebook, float]:
    """The notebook with what its cells answer, and the seconds of processor that it took with its kernel."""
    before = os.times()
    come = executed(notebook, name)
    after = os.times()
    took = after.children_user - before.children_user + after.children_system - before.children_system
    if took > MOST_SECONDS:
        raise Wrong(f"{name}: it takes {took:.0f} s of processor, and {MOST_SECONDS} are the most")
    return come, took


def check(file: pathlib.Path, update: bool) -> float:
    """Checks a notebook: the seconds of processor that it took as it is. Raises Wrong with the first that is wrong."""
    kept: Notebook = json.loads(file.read_text())
    come, took = timed(kept, file.name)
    errors(come, file.name)
    verdicts(come, file.name, "Not yet")
    if update:
        file.write_text(kept_form(come))
    else:
        compare(kept, come, file.name)
    if tagged(kept, "exercise"):
        right, _ = timed(solved(kept, file.name), file.name)
        errors(right, f"{file.name}, solved")
        verdicts(right, f"{file.name}, solved", "Solved")
    return took


def main() -> int:
    """Checks what the line names: status 1 where something is wrong."""
    ask = argparse.ArgumentParser(description=__doc__, formatter_class=argparse.RawDescriptionHelpFormatter)
    ask.add_argument("--update", action="store_true", help="keeps the outputs that come")
    ask.add_argument("files", metavar="NOTEBOOK", nargs="*", type=pathlib.Path)
    line = ask.parse_args()
    wrong = 0
    for file in line.files or sorted(HERE.glob("[0-9]*.ipynb")):
        try:
            took = check(file.resolve(), line.update)
            print(f"{file.name}: as it is kept ({took:.0f} s of processor), and its exercises are solved by their solutions",
                  flush=True)
        except Wrong as fault:
            wrong += 1
            print(fault, file=sys.stderr)
    return 1 if wrong else 0


if __name__ == "__main__":
    sys.exit(main())
