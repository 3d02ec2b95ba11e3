"""Makes the manual pages of the tools, docs/man/, of what each says of itself with --help.

    python/run repo.manpages            writes them
    python/run repo.manpages --check    says which of them differ; layout doesn't count

That of wsc itself, docs/wsc.1, is written by hand, and repo.manual makes help and completions of it.
"""

from __future__ import annotations

import os
import pathlib
import re
import subprocess
import sys
import tomllib

from wavescalar.programs import ROOT

PLACE = ROOT / "docs" / "man"
# The linker's wrapper, as ./install calls it.
LINKER = "wsc-link"
WHAT = {
    "wsc-lint": "report all faults of a WaveScalar assembly at once",
    "wsc-lsp": "serve editors the diagnostics and names of WaveScalar programs",
    LINKER: "annotate the memory operations of a WaveScalar draft",
    "wsc-names": "restore the names of a draft in its linked image",
    "wsc-plan": "plan timed runs of many jobs on many machines, and gather them",
    "wsc-profile": "report the numbers of a run of a WaveScalar program",
    "wsc-replay-check": "ask wsc whether the events of a timing model are a run",
    "wsc-serve": "serve a page that edits, runs and steps through programs",
    "wsc-sim": "time a program on a model of a WaveScalar machine",
    "wsc-sweep": "plan runs of many jobs with many options, and gather them",
    "wsc-view": "draw a run of a WaveScalar program as a page",
    "wsc-why": "explain why wsc refused a text or its arguments",
    "wscc": "compile C for a WaveScalar machine",
}
SHAPE = """.\\" Made of {name} --help by python/run repo.manpages.
.Dd December 1, 2026
.Dt {upper} 1
.Os
.Sh NAME
.Nm {name}
.Nd {what}
.Sh SYNOPSIS
.Bd -literal
{usage}
.Ed
.Sh DESCRIPTION
.Bd -literal
{text}
.Ed
.Sh SEE ALSO
{others}
"""


def names() -> list[str]:
    """The commands that have a page."""
    project = tomllib.loads((ROOT / "python" / "pyproject.toml").read_text())["project"]
    return sorted([*project["scripts"], LINKER])


def help_of(name: str) -> str:
    """What a command says of itself, by its own name."""
    env = {**os.environ, "COLUMNS": "79", "PYTHONPATH": str(ROOT / "python"), "PYTHONDONTWRITEBYTECODE": "1", "WSC": "wsc"}
    if name == LINKER:
        line = ["bash", "-c", f'exec -a {LINKER} bash "$0" --help', str(ROOT / "wsl")]
        told = subprocess.run(line, capture_output=True, text=True, check=True, env=env).stdout
        return told.replace("usage: wsl ", f"usage: {LINKER} ")
    return subprocess.run([ROOT / "python" / name, "--help"], capture_output=True, text=True, check=True, env=env).stdout


def literal(text: str) -> str:
    """Lines as the page has them: what a formatter would read as its own is hidden from it."""
    text = text.replace("\\", "\\e").replace("-", "\\-")
    return re.sub(r"^([.'])", r"\\&\1", text, flags=re.M)


def page_of(name: str) -> str:
    """The page of a command."""
    usage, _, text = help_of(name).partition("\n\n")
    others = [".Xr wsc 1 ,", *(f".Xr {it} 1 ," for it in names() if it != name)]
    others[-1] = others[-1].removesuffix(" ,")
    return SHAPE.format(name=name, upper=name.upper(), what=WHAT[name], usage=literal(usage.removeprefix("usage: ")),
                        text=literal(text.strip("\n")), others="\n".join(others))


def main() -> int:
    wrong: list[str] = []
    for name in names():
        path: pathlib.Path = PLACE / f"{name}.1"
        made = page_of(name)
        if sys.argv[1:] != ["--check"]:
            path.parent.mkdir(exist_ok=True)
            path.write_text(made)
        elif not path.exists() or path.read_text().split() != made.split():
            wrong.append(f"docs/man/{path.name} isn't as {name} --help says; python/run repo.manpages makes it")
    print("\n".join([*wrong, f"{len(names())} manual pages of tools, {len(wrong)} wrong"]))
    return 1 if wrong else 0


if __name__ == "__main__":
    sys.exit(main())
