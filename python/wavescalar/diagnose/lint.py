"""Report all faults of an assembly at once: line, column, instruction and rule, and a remedy for each.

The text is read from FILE or standard input. Faulty lines are reported first, with the rules on shape for the
blocks that have none. Tokens and annotations are checked when every line can be read and every block has its
shape. wsc-lint compares the verdict with that of `wsc check`, and reports a difference.

    wsc-lint loop.asm
    wsc-lint --json < loop.asm | jq .message     one object a line for each fault
    wsc-lint --draft loop.asm                    a draft for wsl, whose annotations are ignored

The exit status is 0 if there is no fault, 2 if there is one.
"""

from __future__ import annotations

import functools
import gc
import json
import sys

from wavescalar.cli import Line, add_program, given, whole
from wavescalar.diagnose.findings import agrees, faults_of
from wavescalar.programs import call
from wavescalar.reader import Finding


def compared(text: str, program: str) -> list[Finding]:
    """All faults of a text, and what `wsc check`, which runs beside, says otherwise."""
    from concurrent.futures import ThreadPoolExecutor
    with ThreadPoolExecutor(1) as beside:
        asked = beside.submit(call, program, ["check"], text)
        found = faults_of(text)
        return found + compare(found, asked.result())


def compare(found: list[Finding], answer: tuple[int, str, str]) -> list[Finding]:
    """What `wsc check` says otherwise, as one more fault, or nothing."""
    status, said, _ = answer
    if status not in (0, 2) or agrees(found, said, status):
        return []
    return [Finding(1, 1, "check", f"`wsc check` says otherwise: {said.strip()}", "tell it to those who keep this program",
                  said.strip())]


def row(fault: Finding, file: str) -> dict[str, int | str]:
    told: dict[str, int | str] = {"file": file, "line": fault.line, "column": fault.column, "severity": "error", "rule": fault.rule,
            "message": fault.message, "mend": fault.mend, "check": fault.check}
    return told | fault.about


def main() -> int:
    ask = Line(__doc__)
    add_program(ask)
    ask.add_argument("--json", action="store_true", help="print one object a line for each fault")
    ask.add_argument("--draft", action="store_true", help="the text is a draft for wsl")
    ask.add_argument("--alone", action="store_true", help="don't run wsc check")
    ask.add_argument("file", nargs="?", metavar="FILE", help="an assembly or a draft")
    line = ask.parse_args()
    text, file = given(line.file), line.file or "-"
    gc.disable()  # all that is made here stays to the end
    if line.alone or line.draft:
        found = faults_of(text, line.draft)
    else:
        found = compared(text, line.wsc)
    for fault in found:
        if line.json:
            print(json.dumps(row(fault, file)))
        else:
            print(f"{file}:{fault.line}:{fault.column}: {fault.rule}: {fault.message}"
                  + (f"; {fault.mend}" if fault.mend else ""))
    return 2 if found else 0


tool = functools.partial(whole, main)

if __name__ == "__main__":
    sys.exit(tool())
