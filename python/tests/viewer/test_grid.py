"""The pages of a clocked grid beside the program.

For each job that compiles, on grids of several sizes: the model's answer, with its firings and cycles, is that of
`wsc grid --stats`; each of its events is enabled in the viewer's machine, and prints the same; no element fires
twice in a cycle, and the last event stands in the last cycle that is told. The steps of a page, which has a model of its own,
are those.
"""

from collections.abc import Iterator

from tests.cases import each
from tests.places import JOBS, WSC, assembly_of_job, images_of
from tests.scripts import Scripts
from wavescalar.numbered import read
from wavescalar.programs import call
from wavescalar.viewer.grid import cycles, recorded

GRIDS = [(elements, waves) for elements in (1, 2, 4, 16, 64) for waves in (1, 2, 4)]
# Of longer runs the model takes seconds.
LONGEST = 1500


def short_jobs() -> Iterator[tuple[str, str]]:
    """The jobs whose runs aren't longer."""
    for name, job in images_of(*JOBS):
        if call(WSC, ["exec", "--budget", str(LONGEST)], assembly_of_job(job))[0] != 3:
            yield name, job


@each("grid", ((f"{elements}x{waves}", (elements, waves)) for elements, waves in GRIDS))
@each("job", short_jobs())
def test_grid(wsc: str, scripts: Scripts, job: str, grid: tuple[int, int]) -> None:
    text = assembly_of_job(job)
    elements, waves = grid
    run = recorded(wsc, text, elements, waves)
    line = ["grid", "--elements", str(elements), "--waves", str(waves), "--stats"]
    status, answer, _ = call(wsc, line, text)
    assert run.answer() == answer
    _, made, why = cycles(read(text), run, 10**6)
    assert (why, len(made)) == ("", len(run.events)), "the machine"
    assert [step["print"] for step in made if "print" in step] == list(map(str, run.printed))
    fires = [(step["cycle"], step["element"]) for step in made if "element" in step]
    assert len(fires) == len(set(fires)) == run.fired, "an element fires twice in a cycle"
    last = f"cycles {made[-1]['cycle'] if made else 0}"
    assert status == 8 or last in answer.split("\n"), "the cycle of the last event"
    shown = scripts("order", text, f"grid-{elements}-{waves}", 10**6)
    assert (shown["steps"], shown["why"], shown["fired"]) == (made, why, run.fired), "the page"
