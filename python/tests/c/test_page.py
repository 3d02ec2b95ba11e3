"""The commands of docs/C.md, typed in an empty folder, print what stands below them."""

from __future__ import annotations

import os
import re
import subprocess
from pathlib import Path

from tests.places import WSC, WSL
from wavescalar.programs import ROOT

PAGE = ROOT / "docs" / "C.md"
MARK = "-- next command --"


def sessions(text: str) -> list[tuple[str, str]]:
    """The commands of a page's blocks that begin with `$ `, each with the lines below it."""
    found: list[tuple[str, str]] = []
    for block in re.findall(r"^```\n(\$ .*?)^```$", text, re.MULTILINE | re.DOTALL):
        lines = block.splitlines(keepends=True)
        while lines:
            command = lines.pop(0)[2:]
            if command.rstrip().endswith("<<'END'"):
                while not command.endswith("\nEND\n"):
                    command += lines.pop(0)
            told = ""
            while lines and not lines[0].startswith("$ "):
                told += lines.pop(0)
            found.append((command, told))
    return found


def test_the_commands_of_the_page(tmp_path: Path) -> None:
    typed = sessions(PAGE.read_text())
    assert len(typed) > 8
    programs = tmp_path / "programs"
    programs.mkdir()
    for name, program in (("wsc", WSC), ("wsl", WSL)):
        (programs / name).symlink_to(program)
    room = tmp_path / "empty"
    room.mkdir()
    script = "".join(f"{command}\necho '{MARK}'\n" for command, _ in typed)
    path = f"{ROOT / 'python'}:{programs}:{os.environ['PATH']}"
    done = subprocess.run(["bash", "-c", script], capture_output=True, text=True, cwd=room, check=False, timeout=1800,
                          env={**os.environ, "PATH": path})
    answers = done.stdout.split(f"{MARK}\n")
    assert len(answers) == len(typed) + 1, done.stderr
    for (command, told), answer in zip(typed, answers):
        assert answer == told, command
