"""Which program and which tools make a result, and on what machine: a table that is kept names them."""

from __future__ import annotations

import functools
import hashlib
import pathlib
import platform
import shutil

from wavescalar import __version__
from wavescalar.programs import ROOT, Stream, exchange

# So many digits of a program's checksum tell it from others.
DIGITS = 12


@functools.lru_cache(maxsize=None)
def of_tools() -> str:
    """That of the package, and the commit of its sources where that is known: `0.1.0 (89473bed1234)`."""
    told = ""
    placed = ROOT / "VERSION"
    if placed.is_file():  # laid down by ./install or ./release
        told = placed.read_text().splitlines()[0]
    elif (ROOT / ".git").exists() and shutil.which("git"):
        line = ["git", "-C", str(ROOT), "describe", "--always", "--dirty", "--abbrev=12"]
        told = exchange(line, [], errors=Stream.DROPPED)[1].decode(errors="replace").strip()
    return f"{__version__} ({told})" if told else __version__


@functools.lru_cache(maxsize=None)
def of_program(program: str) -> str:
    """What `wsc --version` says in its first line; of the bare program, which has no such word, its checksum."""
    found = shutil.which(program)
    if not found:
        return "unknown"
    path = pathlib.Path(found).resolve()
    with path.open("rb") as file:
        is_script = file.read(2) == b"#!"
    if is_script:
        status, answer, _ = exchange([found, "--version"], [], errors=Stream.DROPPED)
        told = answer.decode(errors="replace").partition("\n")[0]
        return told if status == 0 and told.startswith("wsc ") else "unknown"
    return f"sha256:{hashlib.sha256(path.read_bytes()).hexdigest()[:DIGITS]}"


def of_result(program: str) -> dict[str, str]:
    """What a result says of how it was made: program, tools, and platform."""
    return {"wsc": of_program(program), "tools": of_tools(),
            "platform": f"{platform.machine()} {platform.system()}, {platform.python_implementation()} "
                        f"{platform.python_version()}"}
