"""Checks the types of the modules of the pages and of the site by tsc, from the comments in them: `python/run repo.scripts`."""

from __future__ import annotations

import pathlib
import subprocess
import sys
import tempfile

from repo.site.make import HERE as SITE, MODULES
from wavescalar.cli import Line, whole
from wavescalar.viewer.scripts import modules


def main() -> int:
    Line(__doc__).parse_args()
    with tempfile.TemporaryDirectory() as folder:
        for name, text in modules().items():
            pathlib.Path(folder, name).write_text(text)
        for name in (*MODULES, "tsconfig.json"):
            pathlib.Path(folder, name).write_bytes((SITE / name).read_bytes())
        return subprocess.run(["tsc", "-p", folder], check=False).returncode


if __name__ == "__main__":
    sys.exit(whole(main))
