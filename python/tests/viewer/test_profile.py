"""Profiles beside the program.

For each job that compiles, and each assembly that runs: the firings by instruction, by kind and by ideal
round have the sum that `wsc exec --stats` tells, and the issues are those of the trace. The critical path is
as long as a run that makes in each step all matches and issues that are enabled at its beginning, which is
counted here anew; the ideal rounds are no more; each event of the path comes behind the one before it in the
trace; and the waves in flight are those of a plain count, in short traces. The profile and the picture of
docs/EXPERIMENTS.md are those of today.
"""

import pathlib
from collections.abc import Iterator

import pytest

from tests.cases import each
from tests.places import EXAMPLES, ROOT, assembly_of_job, images_of
from wavescalar.machine import Machine
from wavescalar.numbered import read
from wavescalar.programs import call, traced
from wavescalar.viewer.measure import Profile
from wavescalar.viewer.profile_report import picture, told


def texts_of(*folders: pathlib.Path) -> Iterator[tuple[str, str]]:
    """Assemblies with their input sections, each with a name: those of jobs, and others."""
    for folder in folders:
        for name, job in images_of(folder):
            yield name, assembly_of_job(job)
        for file in sorted(folder.glob("*.asm")):
            yield file.name, file.read_text()
        for file in sorted(folder.glob("*.txt")):
            for count, part in enumerate(file.read_text(errors="replace").split("\n> wsc exec")[1:], 1):
                yield f"{file.name}:exec {count}", part.partition("\n")[2].partition("\n=")[0] + "\n"


def in_steps(text: str) -> int | None:
    """How many steps a run has in which all is done that is enabled when a step begins."""
    machine, count = Machine(read(text)), 0
    while machine.way or machine.asked:
        count += 1
        may = [key for key in machine.asked if machine.is_next(*key)]
        may += [key for key in machine.asked if key not in may and machine.may_issue(*key)]
        for event in list(machine.way):
            machine.match(*event)
        # an operation that is next is issued last, so that those that come early find the wave as it was
        for key in reversed(may):
            machine.issue(*key)
        if machine.over and machine.asked:
            return None
    return count


def flights(text: str) -> list[int]:
    """The waves in flight after each event, counted anew from all that is there."""
    image, counts = read(text), list[int]()
    machine = Machine(image)
    for kind, *event in image.trace or ():
        machine.match(*event) if kind == "match" else machine.issue(*event)
        waves = {key[0] for key in machine.way} | {key[0] for key in machine.asked}
        waves |= {key[0] for key, values in machine.ports.items() if len(values) < image.instrs[key[1]].ports}
        counts.append(len(waves))
    return counts


def order_holds(profile: Profile) -> bool:
    """Whether the events of the path stand in the trace one behind the other."""
    at = {}
    for k, step in enumerate(profile.steps):
        if step["k"] == "issue":
            at["issue", step["w"], step["i"]] = k
        elif "full" in step:
            at["fire", step["w"], step["i"]] = k
    places = [at[event] for event in profile.path]
    return all(a < b for a, b in zip(places, places[1:]))


@each("text", texts_of(EXAMPLES, ROOT / "tests"))
def test_run(wsc: str, text: str) -> None:
    """The profile of a run that comes to its end."""
    status, ran, _ = call(wsc, ["exec", "--stats", "--budget", "8000"], text)
    if status not in (0, 8):
        pytest.skip("it is refused, or doesn't end within 8,000 firings")
    traced = call(wsc, ["trace", "--budget", "8000"], text)[1]
    profile = Profile(traced)
    assert order_holds(profile), "the path goes back"
    if len(profile.steps) < 1000:
        assert profile.waves_at == flights(traced), "the waves in flight"
    assert profile.issues == sum(line.startswith("issue") for line in traced.partition("\n%trace\n")[2].splitlines())
    sums = {sum(profile.by_instr.values()), sum(profile.by_kind.values()), profile.firings}
    if status == 0:
        sums |= {int(ran.split("firings ")[1]), sum(profile.fires)}
        assert len(profile.fires) <= len(profile.path) == in_steps(traced), "rounds, the path, and steps"
    assert len(sums) == 1, f"sums {sums}"


def test_docs(wsc: str) -> None:
    """The profile and the picture that docs/EXPERIMENTS.md shows are those of today."""
    profile = Profile(traced(wsc, (EXAMPLES / "matrix.job").read_text()))
    shown = told(profile).split("\n\n")[0].splitlines()
    assert "".join(f"    {line}\n" for line in shown) in (ROOT / "docs" / "EXPERIMENTS.md").read_text()
    assert picture(profile, "matrix") == (ROOT / "docs" / "pictures" / "matrix.svg").read_text()
