"""What the tests of the front end from C need: clang, opt and the linker, and a choice of tests that the gate has time for.

They are left out, and that is said, where one of the three isn't there. `--all-c` takes all of them.
"""

from __future__ import annotations

import os
import shutil
from collections.abc import Callable
from pathlib import Path

import pytest

from tests import asked
from tests.places import WSC, WSL

LACKS = [name for name in ("clang", "opt") if not shutil.which(name)] + ([] if WSL else ["the linker wsl"])

if LACKS:
    collect_ignore_glob = ["test_*.py"]
    asked.told.append(f"left out: all of tests/c, since {', '.join(LACKS)} isn't there (Debian: clang, llvm)")
for name, program in (("WSC", WSC), ("WSL", WSL)):
    if program:
        os.environ[name] = program


@pytest.fixture
def source(tmp_path: Path) -> Callable[..., Path]:
    """Writes a text of C into a file, behind the header's line."""
    def write(text: str, name: str = "test.c") -> Path:
        file = tmp_path / name
        file.write_text(f'#include "wavescalar.h"\n{text}')
        return file

    return write


def pytest_collection_modifyitems(config: pytest.Config, items: list[pytest.Item]) -> None:
    """Leaves out what is marked `long`, and says so, unless all is asked for."""
    if config.getoption("--all-c"):
        return
    left = [it for it in items if it.get_closest_marker("long")]
    if left:
        asked.say(f"left out: {len(left)} tests of tests/c; --all-c takes them too")
        config.hook.pytest_deselected(items=left)
        items[:] = [it for it in items if it not in left]
