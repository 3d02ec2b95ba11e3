"""Makes the events of a trace one after the other, and notes what each of them changes.

A step is a dict for the page: `k` the kind (`match` or `issue`), `w` wave number, `i` instruction, `p` port,
`v` value, `full` where the instance is full, `new` the tokens that set out, each with its arc, and what
changed outside: `print`, `cell`, `read`, `take`, `fault`, and `chain`.
"""

from __future__ import annotations

from typing import Any

from wavescalar.isa import applied
from wavescalar.numbered import Image, Instr

Step = dict[str, Any]
# A token that sets out: its source, the place there, wave number, instruction, port, and value.
Token = list[Any]


class Illegal(Exception):
    """An event that isn't enabled."""


class Machine:
    """The state between events: tokens on the way, ports, requests, chain, and what is outside."""

    def __init__(self, image: Image):
        self.image = image
        # by wave number, instruction and port the token on its way; by wave number and instruction what waits
        self.way: dict[tuple[int, int, int], int] = {}
        self.ports: dict[tuple[int, int], dict[int, int]] = {}
        self.asked: dict[tuple[int, int], dict[int, int]] = {}
        self.issued: dict[int, list[int]] = {}
        self.cells: list[Any] = [[], *([0] * it[1] for it in image.arrays[1:])]
        self.input = list(image.input)
        self.wave, self.over, self.faulted = 1, False, False
        self.last: int | None = None
        self.start = self.send_out(("pad", 1, 0), image.blocks[1].pads[0], 0, 0)

    def send_out(self, source: tuple[str, int, int], dests: list[tuple[int, int]], wave: int, value: int) -> list[Token]:
        """Puts a token on the way to each destination; the arc is its source and its place there."""
        made = []
        for place, (instr, port) in enumerate(dests):
            self.way[wave, instr, port] = value
            made.append([*source, place, wave, instr, port, str(value)])
        return made

    def hand_on(self, instr: int, wave: int, values: dict[int, int]) -> tuple[list[Token], int]:
        """The tokens of an instance that fires, and its result."""
        it = self.image.instrs[instr]
        op, low = it.op, values[0]
        if op == "send":
            exit = self.image.blocks[it.block].exit
            landings = exit[2:]
            block = landings[low] if low < len(landings) else landings[-1]
            pad = self.image.blocks[block].pads[it.arg]
            return self.send_out(("pad", block, it.arg), pad, wave, values[1]), values[1]
        if op == "steer":
            way = 0 if values[1] else 1
            return self.send_out(("out", instr, way), it.lists[way], wave, low), low
        result = (
            it.arg if op == "const" else low if op in ("merge", "advance")
            else (low if values[2] else values[1]) if op == "phi" else applied(op, low, values[1])
        )
        return self.send_out(("out", instr, 0), it.lists[0], wave + (op == "advance"), result), result

    def match(self, wave: int, instr: int, port: int) -> Step:
        """A token comes to its port, and perhaps its instance fires."""
        if (wave, instr, port) not in self.way:
            raise Illegal
        value = self.way.pop((wave, instr, port))
        values = self.ports.setdefault((wave, instr), {})
        values[port] = value
        step: Step = {"k": "match", "w": wave, "i": instr, "p": port, "v": str(value)}
        it = self.image.instrs[instr]
        if len(values) == it.ports:
            step["full"] = 1
            if it.note:
                self.asked[wave, instr] = values
            else:
                step["new"], result = self.hand_on(instr, wave, values)
                step["r"] = str(result)
        return step

    def is_next(self, wave: int, instr: int) -> bool:
        """Whether the request is next in the chain."""
        pred, seq, _, _ = self.image.instrs[instr].note
        if self.over or wave != self.wave:
            return False
        if self.last is None:
            return bool(pred == ".")
        note = self.image.instrs[self.last].note
        return bool(note[2] == seq or pred == note[1])

    def may_issue(self, wave: int, instr: int) -> bool:
        """Whether the request is there and is next, or comes early: a load whose ripple number is passed, with an
        index within its array."""
        if (wave, instr) not in self.asked or self.over:
            return False
        if self.is_next(wave, instr):
            return True
        it = self.image.instrs[instr]
        if it.op != "load" or wave != self.wave or self.asked[wave, instr][0] >= self.image.arrays[it.arg][1]:
            return False
        return bool(it.note[3] <= (self.image.instrs[self.last].note[1] if self.last else 0))

    def is_at_rest(self) -> bool:
        """Whether nothing can happen any more, or nothing is to, since an index was past its end."""
        return self.faulted or not self.way and not any(self.may_issue(*key) for key in self.asked)

    def issue(self, wave: int, instr: int) -> Step:
        """A request is issued, and its answer sets out."""
        if not self.may_issue(wave, instr):
            raise Illegal
        it = self.image.instrs[instr]
        values = self.asked[wave, instr]
        step: Step = {"k": "issue", "w": wave, "i": instr}
        if not self.is_next(wave, instr):
            step["early"] = 1
        result = self.do(it, values, step)
        if result is not None:
            step["r"] = str(result)
            step["new"] = self.send_out(("out", instr, 0), it.lists[0], wave, result)
        del self.asked[wave, instr]
        self.issued.setdefault(wave, []).append(instr)
        step["passed"] = self.pass_on()
        step["chain"] = [self.wave, self.image.instrs[self.last].note[1] if self.last else 0]
        return step

    def do(self, it: Instr, values: dict[int, int], step: Step) -> int | None:
        """Does the operation on what is outside, and gives its result, if it has one."""
        low = values[0]
        if it.op in ("load", "store"):
            array = it.arg or 0
            cells = self.cells[array]
            if low >= len(cells):
                step["fault"] = self.image.arrays[array][0]
                self.over = self.faulted = True
                return 0 if it.op == "load" else None
            if it.op == "load":
                step["at"] = [it.arg, low]
                return int(cells[low])
            cells[low] = values[1]
            step["cell"] = [it.arg, low, str(values[1])]
        elif it.op == "in":
            step["read"] = 1
            return self.input.pop(0) if self.input else 0
        elif it.op == "out":
            step["print"] = str(low)
        elif it.op == "give":
            return 0
        elif it.op == "take":
            step["take"] = [it.arg, str(low)]
        return None

    def pass_on(self) -> list[list[int]]:
        """Lets the chain pass every operation that is next and was issued; gives them."""
        passed: list[list[int]] = []
        while True:
            here = self.issued.get(self.wave, [])
            found = next((instr for instr in here if self.is_next(self.wave, instr)), None)
            if found is None:
                return passed
            here.remove(found)
            passed.append([self.wave, found])
            it = self.image.instrs[found]
            self.last = found
            if it.op == "halt":
                self.over = True
            if it.note[2] == ".":
                self.issued.pop(self.wave)
                self.wave, self.last = self.wave + 1, None


def goes_on(machine: Machine, budget: int | None = None) -> str:
    """Why the events end where the run doesn't; nothing where it does."""
    spent = f": its budget of {budget:,} firings is spent" if budget else ""
    return "" if machine.is_at_rest() else f"Here the events end, and the run doesn't{spent}."


def rounds(image: Image, most: int) -> tuple[list[Token], list[Step], str]:
    """The same as `steps`, in rounds: in each, all tokens on the way at its start come, then all requests
    that may issue do. So the number of rounds is the length of the longest chain of what waits for what."""
    machine, number = Machine(image), 0
    made: list[Step] = []
    while (machine.way or machine.asked) and not machine.faulted:
        number += 1
        events = [("match", *key) for key in machine.way]
        waiting = list(machine.asked)
        for event in events:
            made.append(machine.match(*event[1:]) | {"round": number})
        moved, again = bool(events), True
        while again:
            again = False
            for key in waiting:
                if key in machine.asked and not machine.over:
                    try:
                        made.append(machine.issue(*key) | {"round": number})
                        moved = again = True
                    except Illegal:
                        pass
        if len(made) > most:
            return machine.start, made, f"only the first {number} rounds are shown (--events N shows more)"
        if not moved:
            break
    return machine.start, made, ""


def steps(image: Image, most: int) -> tuple[list[Token], list[Step], str]:
    """The start, the steps of the trace, at most so many, and why it stopped, if it did."""
    machine = Machine(image)
    made: list[Step] = []
    for at, event in enumerate(image.trace or [], 1):
        if at > most:
            return machine.start, made, f"only the first {most} events are shown (--events N shows more)"
        try:
            made.append(machine.match(*event[1:]) if event[0] == "match" else machine.issue(*event[1:]))
        except (Illegal, IndexError, KeyError, TypeError):
            return machine.start, made, f"event {at} isn't enabled: {' '.join(map(str, event))}"
    return machine.start, made, goes_on(machine) if image.trace is not None else ""
