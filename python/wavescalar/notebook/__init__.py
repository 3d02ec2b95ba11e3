"""Jupyter: cell magics, and objects that show themselves. `%load_ext wavescalar.notebook` adds the magics.

`magics` has `%%job` and `%%asm`; `jobs` programs as objects; `show` drawings and pages; `orders` one run in several orders;
`timing` timed runs and sweeps; `explain` refusals in words; `lesson` the checks of exercises. This package stands above
viewer, diagnose and timing, and needs no package of Jupyter itself. docs/NOTEBOOKS.md describes it.
"""

from __future__ import annotations

from typing import Any


def load_ipython_extension(shell: Any) -> None:
    """What `%load_ext wavescalar.notebook` calls: adds the magics to this shell of IPython."""
    from wavescalar.notebook.magics import add_to
    add_to(shell)
