"""Draws the two tables of kernels that stand on docs/TIMING.md: `kernel_plots.py`, to docs/pictures/timing-kernels.svg.

The numbers are read from the page, and check.py asks whether the picture is that of the page's numbers.
"""

from __future__ import annotations

import functools
import sys

from wavescalar.cli import Line, whole
from wavescalar.faults import Fault
from wavescalar.programs import ROOT
from wavescalar.timing.plan import dotted

PAGE, PICTURE = ROOT / "docs" / "TIMING.md", ROOT / "docs" / "pictures" / "timing-kernels.svg"
TITLE = "Kernels on machines that differ from one-cluster in one thing each"
# the columns of both tables, in words that stand alone
COLUMNS = (
    "1 wave in flight", "2 waves in flight", "16 waves in flight", "late stores", "cache of 1 set", "cache of 16 sets",
    "matching tables of 4 entries", "matching tables of 16 entries", "placement block-pod", "placement random",
    "placement turn", "4 threads, 1 cluster", "4 threads, 4 clusters", "4 threads, 16 clusters, waves in turn",
    "links of 1 operand a cycle",
)


def read(page: str) -> dict[str, dict[str, float]]:
    """Of each column of the tables that begin with `Kernel`, but for that of firings, the numbers of the kernels; the
    first table has the cycles of each before them."""
    made: dict[str, dict[str, float]] = {name: {} for name in COLUMNS}
    at, rows, wide = 0, False, 0
    for line in page.splitlines():
        cells = [cell.strip() for cell in line.split("|")[1:-1]]
        if cells[:1] == ["Kernel"] and "Firings" not in cells:
            rows, at, wide = True, at + wide, len(cells) - 1 - ("Cycles" in cells)
        elif not cells:
            rows = False
        elif rows and cells[0].startswith("`"):
            for name, cell in zip(COLUMNS[at : at + wide], cells[-wide:]):
                made[name][cells[0].strip("`")] = float(cell)
    if at + wide != len(COLUMNS):
        raise Fault(f"{PAGE.name} has {at + wide} columns of kernels and not {len(COLUMNS)}")
    return made


def drawn() -> str:
    """The picture of the page's numbers."""
    return dotted(read(PAGE.read_text()), TITLE, "cycles as a part of those on one-cluster, a dot for each kernel")


def main() -> int:
    Line(__doc__).parse_args()
    PICTURE.write_text(drawn())
    return 0


tool = functools.partial(whole, main)

if __name__ == "__main__":
    sys.exit(tool())
