"""What all commands have in common: their names, versions, and how they end."""

from __future__ import annotations

import os
import pathlib
import signal
import subprocess
import time
import tomllib

import pytest

from tests.places import EXAMPLES, LIBRARY

COMMANDS = sorted(tomllib.loads((LIBRARY / "pyproject.toml").read_text())["project"]["scripts"])


def ran(*words: str | pathlib.Path, cwd: pathlib.Path | None = None) -> subprocess.CompletedProcess[str]:
    return subprocess.run(words, capture_output=True, text=True, check=False, cwd=cwd)


def test_launchers() -> None:
    """Each command has one, by its name."""
    found = [it.name for it in LIBRARY.iterdir() if it.is_file() and os.access(it, os.X_OK) and it.name != "run"]
    assert sorted(found) == COMMANDS


@pytest.mark.parametrize("command", COMMANDS)
def test_version_and_help(command: str, tmp_path: pathlib.Path) -> None:
    """Both from any folder, also through a link."""
    (tmp_path / command).symlink_to(LIBRARY / command)
    done = ran(tmp_path / command, "--version", cwd=tmp_path)
    assert (done.returncode, done.stdout.startswith(f"{command} 0."), done.stderr) == (0, True, "")
    assert ran(tmp_path / command, "--help", cwd=tmp_path).stdout.startswith(f"usage: {command} ")
    assert ran(tmp_path / command, "--no-such-option", cwd=tmp_path).returncode == 1


@pytest.mark.parametrize("command, words", (("wsc-sweep", "run"), ("wsc-plan", "--waves 1")))
def test_plan_without_a_program(command: str, words: str, tmp_path: pathlib.Path) -> None:
    """A plan that can't be run isn't made."""
    job = EXAMPLES / "sum.job"
    done = ran(LIBRARY / command, "plan", "--wsc", tmp_path / "none", "--jobs", job, "--do", words)
    assert (done.returncode, done.stdout) == (2, "")
    assert done.stderr == f"{command}: {tmp_path}/none is no program that can be run; --wsc names one\n"


def test_interrupt(tmp_path: pathlib.Path) -> None:
    """Ctrl-C while the program is waited for."""
    slow = tmp_path / "slow"
    slow.write_text(f"#!/bin/sh\ntouch '{tmp_path}/begun'\nexec sleep 60\n")
    slow.chmod(0o755)
    line = [str(it) for it in (LIBRARY / "wsc-view", "--wsc", slow, EXAMPLES / "sum.job", "-o", tmp_path / "page.html")]
    child = subprocess.Popen(line, stderr=subprocess.PIPE, text=True, start_new_session=True)
    while not (tmp_path / "begun").exists():
        time.sleep(0.05)
    time.sleep(0.2)
    os.killpg(child.pid, signal.SIGINT)
    assert (child.wait(60), child.stderr and child.stderr.read()) == (130, "")
