"""All numbers of a run, from its trace."""

from collections import Counter
from typing import Iterable, Sequence

from wavescalar.faults import Fault
from wavescalar.machine import Step, Token, rounds, steps
from wavescalar.numbered import read
from wavescalar.viewer.paths import Flight, Paths


class Profile:
    """All numbers of a run."""

    def __init__(self, text: str):
        self.image = image = read(text)
        most_shown = len(image.trace or ())
        start, self.steps, why = steps(image, most_shown)
        if why:
            raise Fault(why)
        _, self.round_steps, _ = rounds(image, most_shown)
        self.ended = any(image.instrs[step["i"]].op == "halt" for step in self.steps if step["k"] == "issue")
        self.fault = next((step["fault"] or "hidden" for step in self.steps if "fault" in step), None)
        self.by_instr = Counter(step["i"] for step in self.steps if "full" in step)
        self.by_kind = Counter(image.instrs[i].op for i in self.by_instr.elements())
        self.firings = sum(self.by_kind.values())
        self.issues = sum(step["k"] == "issue" for step in self.steps)
        paths = Paths(image)
        for step in self.steps:
            paths.step(step)
        self.path = paths.path()
        self.on_path = Counter(i for what, _, i in self.path if what == "fire")
        self.kind_on_path = Counter(image.instrs[i].op for i in self.on_path.elements())
        self.issues_on_path = Counter(image.instrs[i].op for what, _, i in self.path if what == "issue")
        self.waves_at = self.flights(start, self.steps)
        self.waits, self.open = self.waiting(self.steps, None)
        self.round_waits, _ = self.waiting(self.round_steps, "round")
        self.in_rounds(start)

    def flights(self, start: list[Token], made: list[Step]) -> list[int]:
        """How many wave numbers are in flight after each event."""
        flight, counts = Flight(self.image, start), []
        for step in made:
            flight.step(step)
            counts.append(flight.waves)
        return counts

    def waiting(self, made: list[Step], key: str | None) -> tuple[list[tuple[int, bool, int]], int]:
        """For each issue its instruction, whether it came early, and how long its request has waited."""
        asked: dict[tuple[int, int], int] = {}
        waits: list[tuple[int, bool, int]] = []
        for at, step in enumerate(made):
            place = step["w"], step["i"]
            now = step[key] if key else at
            if step["k"] == "issue":
                waits.append((step["i"], "early" in step, now - asked.pop(place, now)))
            elif "full" in step and self.image.instrs[step["i"]].note:
                asked[place] = now
        return waits, len(asked)

    def in_rounds(self, start: list[Token]) -> None:
        """For each ideal round the firings in it, and the waves in flight when it begins."""
        total = self.round_steps[-1]["round"] if self.round_steps else 0
        self.fires, self.waves_in = [0] * total, [0] * total
        flight, seen = Flight(self.image, start), 0
        for step in self.round_steps:
            while seen < step["round"]:
                self.waves_in[seen] = flight.waves
                seen += 1
            self.fires[step["round"] - 1] += "full" in step
            flight.step(step)

    def state(self) -> str:
        """How the run has ended, in words."""
        if self.fault:
            return f"stopped at an index fault on {self.fault}"
        return "at rest" if self.ended else "open: the budget was spent"


def mean(values: Sequence[float]) -> float:
    """The mean, or 0 of none."""
    return sum(values) / len(values) if values else 0.0


def most(values: Iterable[int]) -> int:
    """The greatest, or 0 of none."""
    return max(values, default=0)
