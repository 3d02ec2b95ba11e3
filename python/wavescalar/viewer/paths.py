"""What is in flight between the events of a run, and what each event depends on."""

from collections import Counter
from typing import Any, Iterable

from wavescalar.machine import Step, Token
from wavescalar.numbered import Image

# An event: `fire` or `issue`, wave number, instruction. And with the length of the longest chain up to it.
Event = tuple[str, int, int]
Made = tuple[int, Event | None]


class Flight:
    """How many tokens and requests each wave number has, and so how many of them are in flight."""

    def __init__(self, image: Image, start: list[Token]):
        self.image, self.waves = image, 0
        self.counts: Counter[int] = Counter()
        for token in start:
            self.add(token[-4], 1)

    def add(self, wave: int, by: int) -> None:
        """So many more tokens and requests of a wave number."""
        before = self.counts[wave]
        self.counts[wave] += by
        self.waves += (self.counts[wave] > 0) - (before > 0)

    def step(self, step: Step) -> None:
        """What an event changes."""
        for token in step.get("new", ()):
            self.add(token[-4], 1)
        it = self.image.instrs[step["i"]]
        if step["k"] == "issue":
            self.add(step["w"], -1)
        elif "full" in step:
            # its tokens are gone; where it is a memory operation, its request waits in their place
            self.add(step["w"], (1 if it.note else 0) - it.ports)


class Paths:
    """How many events stand on the longest chain up to each firing and issue, the last one included."""

    def __init__(self, image: Image):
        self.image, self.best = image, 0
        self.tokens: dict[tuple[int, int, int], Made] = {}
        self.fired: dict[tuple[int, int], Any] = {}
        self.before: dict[Event, Event | None] = {}
        self.issued: dict[tuple[int, int], Made] = {}
        self.end: Event | None = None
        self.passed: Made = (0, None)
        self.marks: list[tuple[int, Made]] = []

    def put(self, event: Event, sources: Iterable[Made]) -> Made:
        """An event behind these, each a length and the event at its end."""
        length, last = max(sources, key=lambda source: source[0], default=(0, None))
        self.before[event] = last
        if length + 1 > self.best:
            self.best, self.end = length + 1, event
        return length + 1, event

    def step(self, step: Step) -> None:
        """What an event depends on, and what will depend on it."""
        key = step["w"], step["i"]
        if step["k"] == "match":
            token = self.tokens.pop((*key, step["p"]), (0, None))
            self.fired.setdefault(key, []).append(token)
            if "full" not in step:
                return
            made = self.put(("fire", *key), self.fired[key])
            self.fired[key] = made
        else:
            made = self.put(("issue", *key), [self.fired[key], self.order(step)])
            self.issued[key] = made
        for *_, wave, instr, port, _ in step.get("new", ()):
            self.tokens[wave, instr, port] = made
        for wave, instr in step.get("passed", ()):
            self.pass_on(wave, self.image.instrs[instr].note, self.issued[wave, instr])

    def order(self, step: Step) -> Made:
        """What has to have passed before this operation may be issued."""
        it = self.image.instrs[step["i"]]
        if it.op != "load":
            return self.passed
        reached = [made for seq, made in self.marks if seq >= it.note[3]]
        return reached[0] if reached else self.passed

    def pass_on(self, wave: int, note: Any, made: Made) -> None:
        """The chain passes an operation: what it has passed is over when the last of that is."""
        self.passed = max(self.passed, made, key=lambda one: one[0])
        # a load with ripple 0 waits for the wave's turn alone: mark 0 is the end of the wave before
        self.marks = [(0, self.passed)] if note[2] == "." else [*self.marks, (note[1], self.passed)]

    def path(self) -> list[Event]:
        """The events of the critical path, from the first on."""
        made: list[Event] = []
        event = self.end
        while event:
            made.append(event)
            event = self.before[event]
        return made[::-1]
