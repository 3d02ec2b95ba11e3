"""The machine of the pages, and that of the tools in Python, beside the program.

For each job that compiles, both make the events of the program's trace, and in rounds; all print what `wsc exec` prints, and
fire as many instances. Each image is drawn, on a page of wsc-view.
"""

import time
from typing import Any

from tests import asked
from tests.cases import each
from tests.places import EXAMPLES, ROOT, assembly_of_job, images_of
from tests.scripts import Scripts
from wavescalar.machine import rounds, steps
from wavescalar.numbered import read
from wavescalar.programs import call


@each("job", images_of(EXAMPLES, ROOT / "tests"))
def test_events(wsc: str, scripts: Scripts, job: str) -> None:
    text = assembly_of_job(job)
    status, ran, _ = call(wsc, ["exec", "--stats", "--budget", "4000"], text)
    traced = call(wsc, ["trace", "--budget", "4000"], text)[1]
    for way in (steps, rounds) if status == 0 else (steps,):
        made, why = way(read(traced), 10**6)[1:]
        of_events(f"{way.__name__} in Python", made, why, status, ran)
        begun = time.time()
        shown = page_of(scripts, traced, "trace" if way is steps else "rounds")
        slowest.append((time.time() - begun, text.count(": ")))
        of_events(f"{way.__name__} of a page", shown["steps"], shown["why"], status, ran)
        asked.want("instructions that are drawn", len(shown["drawing"]["nodes"]), len(read(traced).instrs) - 1)


def page_of(scripts: Scripts, text: str, order: str) -> Any:
    """What a page of wsc-view shows of a text, which has all of its events."""
    return scripts("page", {"text": text, "job": "", "order": order, "most": 10**6, "budget": 10**6,
                            "found": {"statements": [], "said": {}}})


def of_events(name: str, made: list[Any], why: str, status: int, ran: str) -> None:
    """Compares events with what the program printed of a run."""
    printed = [it["print"] for it in made if "print" in it]
    fired = sum("full" in it for it in made)
    wanted = ran.split("\n")
    words = [word for word in wanted if word.isdigit()]
    most = len(printed) if status in (0, 8) else min(len(printed), len(words))
    asked.want(f"{name}: its words", printed[:most], words if status in (0, 8) else words[:most])
    asked.want(f"{name}: whether it ends early", bool(why), status == 3)
    if status == 0:
        assert f"firings {fired}" in wanted, f"{name}: {fired} firings and not {wanted[-4:]}"


# Of each page the seconds that it took, and its instructions.
slowest: list[tuple[float, int]] = []


def test_pages_are_quick() -> None:
    """Says how long a page took; time itself is no test."""
    if slowest:
        asked.say(f"{len(slowest)} pages: at most {max(many for _, many in slowest)} instructions, "
                  f"{max(took for took, _ in slowest):.1f} s")
