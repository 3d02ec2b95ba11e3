"""What the timing model itself takes: `speed.py [--python pypy3] [--machine NAME] [--sizes N..] [KERNEL..]`.

Runs wsc-sim on kernels of examples/kernels/ for about N firings each, and prints a row of a table for each run: firings,
cycles, seconds of processor (of the Python process and its calls of wsc), microseconds a firing, and megabytes at most.
With --verify the run is verified too.
"""

from __future__ import annotations

import functools
import sys
import tempfile

from wavescalar.cli import Line, add_program, whole
from wavescalar.faults import Fault
from wavescalar.programs import ROOT, measured

SIM, MAKE = ROOT / "python" / "wsc-sim", ROOT / "examples" / "kernels" / "make.py"


def ran(words: list[str]) -> tuple[str, float, float]:
    """What a command prints, its seconds of processor, and the most kilobytes that it or a child had at a time."""
    done = measured(words, b"")
    if done.status:
        raise Fault(f"{' '.join(words)} ends with status {done.status}")
    return done.answer.decode(), done.user + done.system, done.kilobytes


def main() -> int:
    ask = Line(__doc__)
    ask.add_argument("kernels", metavar="KERNEL", nargs="*")
    ask.add_argument("--python", metavar="PROGRAM", default=sys.executable)
    ask.add_argument("--machine", metavar="NAME", default="one-cluster")
    ask.add_argument("--sizes", metavar="N", nargs="+", default=["10000", "100000", "1000000"])
    ask.add_argument("--verify", action="store_true")
    add_program(ask)
    line = ask.parse_args()
    print("| Kernel | Machine | Firings | Cycles | Seconds | Microseconds a firing | MB |\n|---|---|---|---|---|---|---|")
    with tempfile.TemporaryDirectory() as folder:
        for name in line.kernels or ["sort", "jacobi"]:
            for size in line.sizes:
                ran([str(MAKE), size, name, "--out", folder])
                words = [line.python, str(SIM), f"{folder}/{name}.job", "--wsc", line.wsc, "--machine", line.machine]
                told, seconds, most = ran([*words, "--stats", *(["--verify"] if line.verify else [])])
                numbers = dict(row.split(" ") for row in told.splitlines() if row.startswith(("firings ", "cycles ")))
                fired = int(numbers["firings"])
                print(f"| `{name}` | `{line.machine}` | {fired:,} | {int(numbers['cycles']):,} | {seconds:.1f} |"
                      f" {1e6 * seconds / fired:.1f} | {most / 1024:.0f} |", flush=True)
    return 0


tool = functools.partial(whole, main)

if __name__ == "__main__":
    sys.exit(tool())
