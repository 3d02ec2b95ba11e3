"""The events of a run on a clocked grid, cycle by cycle.

The program prints none, so they are worked out by the model of `grid_model.py`, which knows the rules of the grid
alone; `check_grid.py` compares its cycles with those of `wsc grid --stats`.
"""

from typing import Any

from wavescalar.viewer import grid_model
from wavescalar.machine import Illegal, Machine, Step, Token, goes_on
from wavescalar.numbered import Image, sections
from wavescalar.programs import call, refusal, with_input

# The usual size and number of waves, and the most firings.
ELEMENTS, WAVES, BUDGET = 16, 4, 100000


def numbered(program: str, text: str) -> tuple[str, list[int]]:
    """The assembly as the program prints it, with numbers in place of names, and the words of its input."""
    text = with_input("\n".join(sections(text)[0][0]).rstrip("\n") + "\n", text)
    status, made, errors = call(program, ["trace", "--budget", "0"], text)
    if status not in (0, 3, 8):
        raise refusal("trace", status, made, errors)
    own, _, rest = made.partition("\n%input\n")
    return own, [int(word) for word in rest.partition("%trace\n")[0].split()]


class Recorded(grid_model.Run):
    """A run that notes its events, each with its cycle, as a trace has them."""

    def __init__(self, *told: Any):
        super().__init__(*told)
        self.events: list[tuple[Any, ...]] = []
        # the cycle of the last event, also where a fault ends the run
        self.told_cycles = 0

    def match(self, token: grid_model.Token) -> None:
        self.events.append((self.cycles + 1, "match", *token))
        super().match(token)

    def issue(self, wave: int, i: int) -> None:
        self.events.append((self.cycles + 1, "issue", wave, i))
        super().issue(wave, i)


def recorded(program: str, text: str, elements: int, waves: int, budget: int = BUDGET) -> Recorded:
    """The model's run of an assembly, of at most so many firings."""
    own, words = numbered(program, text)
    run = Recorded(grid_model.Image(own), words, elements, waves, budget)
    run.run()
    run.told_cycles = run.events[-1][0] if run.events else 0
    return run


def cycles(image: Image, run: Recorded, most: int) -> tuple[list[Token], list[Step], str]:
    """As `steps` of machine.py: the start, the steps, each with its cycle and a firing with its element, and why
    they end, where they do before the run does."""
    machine = Machine(image)
    made: list[Step] = []
    for cycle, kind, *event in run.events:
        if len(made) >= most:
            return machine.start, made, f"only the first {most} events are shown (--events N shows more)"
        try:
            step = machine.match(*event) if kind == "match" else machine.issue(*event)
        except Illegal:
            return machine.start, made, f"event {len(made) + 1} isn't enabled: {kind} {event}"
        step["cycle"] = cycle
        if "full" in step:
            step["element"] = step["i"] % run.elements
        made.append(step)
    return machine.start, made, goes_on(machine, run.budget)
