"""Check a trace that any model wrote with `wsc replay`, which is proved. Without FILE, standard input is read.

The text has the assembly, its input after %input, and after %trace the events, `match W I P` and `issue W I`, in the
order in which they happened. `wsc replay` repeats them one after another. If no further event is enabled at their end,
the words and the firings are compared with those of `wsc exec`. An event that isn't enabled is reported with its
instruction, an index fault with its array. Comments `# cycle N` before events are counted, but not checked.

    (wsc compile < sum.job; sed -n '/^%input/,$p' sum.job) | wsc trace | ./model | python/wsc-replay-check
"""

from __future__ import annotations

import functools
import re
import sys
from typing import Any

from wavescalar.cli import Line, add_program, given, whole
from wavescalar.faults import Fault
from wavescalar.numbered import read, sections
from wavescalar.programs import call, with_input
from wavescalar.timing.verify import MOST


def refusal(text: str, image: Any, answer: str) -> str:
    """What the refusal of a trace means: its line, and the instruction of the event."""
    number = int((re.search(r"refused (\d+)", answer) or [0, 0])[1])
    lines = text.split("\n")
    event = lines[number - 1] if 0 < number <= len(lines) else ""
    found = re.match(r"\s*(match|issue) (\d+) (\d+)", event)
    if not found or int(found[3]) >= len(image.instrs):
        return f"wsc replay: {answer.strip()}: {event.strip()}"
    it = image.instrs[int(found[3])]
    what = "a request that isn't there or whose turn it isn't" if found[1] == "issue" else "a token that isn't on its way"
    return f"wsc replay: {answer.strip()}: {event.strip()}, of {image.name_of(int(found[3]))} {it.op}: {what}"


def judged(program: str, text: str) -> tuple[bool, str]:
    """Whether the trace is one of the whole run, and what is said of it."""
    image = read(text)
    status, answer, _ = call(program, ["replay"], text)
    if status:
        return False, refusal(text, image, answer)
    *words, end, firings = answer.splitlines()
    own = with_input("\n".join(sections(text)[0][0]).rstrip("\n") + "\n", text)
    _, whole_run, _ = call(program, ["exec", "--stats", "--budget", str(MOST)], own)
    told = whole_run.splitlines()
    cycles = [int(number) for number in re.findall(r"^# cycle (\d+)", text, re.MULTILINE)]
    more = f"; {max(cycles)} cycles by its comments" if cycles else ""
    taken = f"wsc replay takes all {len(image.trace or [])} events"
    fault = next((line.removeprefix("fault ") for line in told if line.startswith("fault ")), None)
    if fault is not None and words == told[:-1]:
        return True, f"{taken}, to the index fault at array {fault} and the words of wsc exec{more}"
    if end == "rest" and [*words, "halt", firings] == told:
        return True, f"{taken}, to the words and firings of wsc exec{more}"
    return False, f"{taken}, and then more can happen: it ends as {end}, {firings}{more}"


def main() -> int:
    ask = Line(__doc__)
    ask.add_argument("file", metavar="FILE", nargs="?", help="a trace")
    add_program(ask)
    line = ask.parse_args()
    holds, said = judged(line.wsc, given(line.file))
    if not holds:
        raise Fault(said)
    print(said)
    return 0


tool = functools.partial(whole, main, images=True)

if __name__ == "__main__":
    sys.exit(tool())
