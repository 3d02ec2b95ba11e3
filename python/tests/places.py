"""Where the tests find programs and texts: WSC, WSL and WSS name the programs, else they are those that the gate has built;
WSC_TEXTS names more folders of .asm files.
"""

from __future__ import annotations

import functools
import os
import pathlib
import re
import subprocess
import unittest
from collections.abc import Iterator

from wavescalar.programs import ROOT as ROOT, call, with_input

LIBRARY = pathlib.Path(__file__).resolve().parent.parent
EXAMPLES = ROOT / "examples"
# The folders of jobs that have sizes of their own for machines and grids.
JOBS = (EXAMPLES, EXAMPLES / "viewer")
# An assembly that prints 7.
SEVEN = """wavescalar 2
wave 1
block start
pad 0 in.0
in: advance -> seven.0 end.0
seven: const 7 -> show.0
show: out <., 1, 2>.1
end: halt <1, 2, .>.2
stop
end
"""


def _program(name: str) -> str:
    """A program that is named, else the one of the gate where it is there, else nothing."""
    proved = ROOT / "crates" / name / "out" / name
    path = os.environ.get(name.upper()) or (proved if proved.exists() else "")
    return str(pathlib.Path(path).resolve()) if path and os.access(path, os.X_OK) else ""


WSC, WSL, WSS = map(_program, ("wsc", "wsl", "wss"))
needs_linker = unittest.skipUnless(WSL, "no linker: WSL names none")


def texts() -> dict[str, str]:
    """Assemblies by where they come from: examples, the texts of tests/, and the folders that are named."""
    found: dict[str, str] = {}
    folders = [EXAMPLES, *map(pathlib.Path, filter(None, os.environ.get("WSC_TEXTS", "").split(":")))]
    for file in [file for folder in folders for file in sorted(folder.glob("*.asm"))]:
        found[file.name] = _text(file)
    for file in sorted((ROOT / "tests").glob("*.txt")):
        parts = re.split(r"^> wsc (?=check|exec|list|trace|grid|decouple|replay)", _text(file), flags=re.MULTILINE)
        for count, part in enumerate(parts[1:], 1):
            found[f"{file.name}:{count}"] = part.partition("\n")[2].partition("\n=")[0]
    return found


def jobs_of(*folders: pathlib.Path) -> Iterator[tuple[str, str]]:
    """The jobs of folders, .job files or texts as those of tests/, each with a name for its case."""
    for folder in folders:
        for file in sorted(folder.glob("*.job")):
            yield str(file.relative_to(ROOT)), file.read_text()
        for file in sorted(folder.glob("*.txt")):
            for count, part in enumerate(file.read_text(errors="replace").split("\n> wsc ")[1:], 1):
                words, _, rest = part.partition("\n")
                if words.split()[0] in ("run", "plain", "compile"):
                    yield f"{file.name}:{count}", rest.partition("\n=")[0]


@functools.lru_cache(maxsize=None)
def compiled(job: str) -> str | None:
    """The assembly of a job with its input section, or nothing where the program refuses it."""
    status, image, _ = call(WSC, ["compile"], job)
    return None if status else with_input(image, job)


def images_of(*folders: pathlib.Path) -> Iterator[tuple[str, str]]:
    """The jobs of folders that compile, as `jobs_of` has them."""
    if WSC:
        yield from ((name, job) for name, job in jobs_of(*folders) if compiled(job) is not None)


def assembly_of_job(job: str) -> str:
    """What such a job compiles to."""
    text = compiled(job)
    assert text is not None
    return text


def _text(file: pathlib.Path) -> str:
    return file.read_bytes().decode(errors="surrogateescape")


def answer(words: list[str], text: str) -> str:
    """What `wsc` answers."""
    given = text.encode(errors="surrogateescape")
    return subprocess.run([WSC, *words], input=given, capture_output=True, check=False).stdout.decode(errors="replace")
