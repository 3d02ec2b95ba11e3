"""A language server for jobs and assemblies of wsc, over standard input and output.

An editor starts it. It speaks the Language Server Protocol 3.17: diagnostics, hover, definition, references,
symbols, completion, formatting, rename, code actions and semantic tokens. editors/README.md says how editors
start it.

The exit status is 0 if the editor's request `shutdown` came before its notification `exit`, else 1.
"""

from __future__ import annotations

import functools
import sys

from wavescalar.cli import Line, add_program, whole
from wavescalar.lsp.background import DELAY
from wavescalar.lsp.faults import Programs
from wavescalar.lsp.server import LARGE, Server, Settings
from wavescalar.programs import usual_linker


def main() -> int:
    """Reads the line, and serves."""
    ask = Line(__doc__)
    ask.add_argument("--stdio", action="store_true", help="use standard input and output, as without this option")
    add_program(ask)
    ask.add_argument("--wsl", metavar="PROGRAM", default=usual_linker(), help="the linker; by default $WSL, else wsl at "
                     "the top of the repository, else wsc-link on the path")
    ask.add_argument("--delay", metavar="SECONDS", type=float, default=DELAY,
                     help=f"the time from the last change of a text to its diagnostics ({DELAY})")
    ask.add_argument("--large", metavar="CHARACTERS", type=int, default=LARGE,
                     help=f"check a longer text in a process of its own ({LARGE}; 0: no text)")
    line = ask.parse_args()
    source, sink = sys.stdin.buffer, sys.stdout.buffer
    sys.stdout = sys.stderr  # what a tool prints is no message
    return Server(source, sink, Settings(Programs(line.wsc, line.wsl), line.delay, line.large)).serve()


tool = functools.partial(whole, main)

if __name__ == "__main__":
    sys.exit(tool())
