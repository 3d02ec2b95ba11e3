"""Works out a run of assembly on a clocked grid, by the rules of the grid alone.

    python/wavescalar/viewer/grid_model.py ELEMENTS WAVES [BUDGET] < ASSEMBLY     prints what `wsc grid --stats` answers

An instance is an instruction under a wave number. Instruction I lies on element I mod ELEMENTS. In each
cycle, in this order:

1. Requests are issued until none may be, of those that may the one with the least sequence number first.
2. Of the tokens that were on the way when the cycle began, those that don't complete the ports of their
   instance go to their ports, in the order of wave, instruction and port.
3. Each element, from 0 on, fires the least instance, by wave and instruction, that such a token completes,
   if its wave number is below the chain's current wave plus WAVES and fewer than BUDGET have fired.

The run ends with the last cycle in which something happens, or where a load or store past the end of its
array is issued. This reads assembly that `wsc check` finds sound, and knows nothing of the program's code.
"""

import re
import sys
from typing import Any, Callable, Iterable

WORD = 1 << 64
PORTS = {"phi": 3, "steer": 2, "send": 2, "store": 2}
MEMORY = {"load", "store", "in", "out", "give", "take", "nop", "halt"}
# Wave number, instruction and port.
Token = tuple[int, int, int]
ALU: dict[str, Callable[[int, int], int]] = {
    "add": lambda a, b: a + b,
    "sub": lambda a, b: a - b,
    "mul": lambda a, b: a * b,
    "div": lambda a, b: a // b if b else WORD - 1,
    "rem": lambda a, b: a % b if b else a,
    "and": lambda a, b: a & b,
    "or": lambda a, b: a | b,
    "xor": lambda a, b: a ^ b,
    "shl": lambda a, b: a << b % 64,
    "shr": lambda a, b: a >> b % 64,
    "eq": lambda a, b: int(a == b),
    "ne": lambda a, b: int(a != b),
    "lt": lambda a, b: int(a < b),
    "le": lambda a, b: int(a <= b),
    "gt": lambda a, b: int(a > b),
    "ge": lambda a, b: int(a >= b),
}


def places(text: str) -> list[tuple[int, int]]:
    """The destinations in a list: each an instruction with a port."""
    return [(int(i), int(port)) for i, port in (place.split(".") for place in text.split())]


class Image:
    """Arrays' lengths and names, instructions by number, and of each block its pads and its exit."""

    def __init__(self, text: str):
        self.lengths: list[int] = []
        self.names: list[str] = []
        self.instrs: dict[int, dict[str, Any]] = {}
        self.pads: dict[int, dict[int, list[tuple[int, int]]]] = {}
        self.exits: dict[int, list[str]] = {}
        block = 0
        for line in text.splitlines():
            parts = line.split()
            if parts[:1] in (["array"], ["hidden"]):
                self.lengths.append(int(parts[-1]))
                self.names.append(parts[1])
            elif parts[:1] == ["block"]:
                block = int(parts[1])
                self.pads[block] = {}
            elif parts[:1] == ["pad"]:
                self.pads[block][int(parts[1])] = places(" ".join(parts[2:]))
            elif re.match(r"\d+:", line):
                self.add(line, block)
            elif parts[:1] in (["go"], ["if"], ["send"], ["stop"]):
                self.exits[block] = parts
        self.start = self.pads[1][0]

    def add(self, line: str, block: int) -> None:
        """An instruction by its line."""
        number, rest = line.split(":", 1)
        rest, _, lists = rest.partition("->")
        note = re.search(r"<(\S+), (\d+), (\S+)>\.(\d+)", rest)
        words = rest.split("<")[0].split()
        self.instrs[int(number)] = {
            "op": words[0],
            "with": int(words[1]) if len(words) > 1 else None,
            "ports": PORTS.get(words[0], 2 if words[0] in ALU else 1),
            "note": note and (note[1], int(note[2]), note[3], int(note[4])),
            "lists": [places(part) for part in lists.split("|")],
            "block": block,
        }


class Run:
    """The state of a run: tokens on the way and at ports, requests, the chain, and memory."""

    def __init__(self, image: Image, words: Iterable[int], elements: int, waves: int, budget: int):
        self.image, self.words = image, list(words)
        self.elements, self.waves, self.budget = elements, waves, budget
        self.cells = [[0] * length for length in image.lengths]
        self.way: dict[Token, int] = {(0, i, p): 0 for i, p in image.start}
        self.held: dict[Token, int] = {}
        self.waiting: dict[tuple[int, int], list[int]] = {}
        self.issued: set[tuple[int, int]] = set()
        self.wave, self.fired, self.cycles = 1, 0, 0
        self.last: int | None = None
        self.fault: str | None = None
        self.printed: list[int] = []

    def completes(self, token: Token) -> bool:
        """Whether the ports of the token's instance are complete with it."""
        wave, i, port = token
        return all(p == port or (wave, i, p) in self.held for p in range(self.image.instrs[i]["ports"]))

    def send(self, dests: list[tuple[int, int]], wave: int, value: int) -> None:
        """Puts a token on the way to each destination."""
        for i, port in dests:
            self.way[wave, i, port] = value

    def match(self, token: Token) -> None:
        """The token goes to its port, and its instance fires if it is complete."""
        wave, i, _ = token
        fires = self.completes(token)
        self.held[token] = self.way.pop(token)
        if fires:
            self.fired += 1
            self.fire(wave, i, [self.held[wave, i, p] for p in range(self.image.instrs[i]["ports"])])

    def fire(self, wave: int, i: int, values: list[int]) -> None:
        """An instance fires: its result is sent, or its request waits."""
        instr = self.image.instrs[i]
        op, lists = instr["op"], instr["lists"]
        if op in MEMORY:
            self.waiting[wave, i] = values
        elif op == "steer":
            self.send(lists[0] if values[1] else lists[1], wave, values[0])
        elif op == "send":
            landings = self.image.exits[instr["block"]][2:]
            landing = int(landings[min(values[0], len(landings) - 1)])
            self.send(self.image.pads[landing][instr["with"]], wave, values[1])
        elif op == "const":
            self.send(lists[0], wave, instr["with"])
        elif op == "phi":
            self.send(lists[0], wave, values[0] if values[2] else values[1])
        elif op in ALU:
            self.send(lists[0], wave, ALU[op](*values) % WORD)
        else:
            self.send(lists[0], wave + (op == "advance"), values[0])

    def note(self, i: int) -> tuple[str, int, str, int]:
        """An operation's predecessor, number, successor and ripple number."""
        found: tuple[str, int, str, int] = self.image.instrs[i]["note"]
        return found

    def is_next(self, i: int) -> bool:
        """Whether the operation comes right behind the one that was passed last in the current wave."""
        if self.last is None:
            return self.note(i)[0] == "."
        _, number, successor, _ = self.note(self.last)
        return successor == str(self.note(i)[1]) or self.note(i)[0] == str(number)

    def is_past(self, i: int, values: list[int]) -> bool:
        """Whether a load or store is of an index past the end of its array."""
        instr = self.image.instrs[i]
        return instr["op"] in ("load", "store") and values[0] >= self.image.lengths[instr["with"] - 1]

    def may_issue(self, wave: int, i: int) -> bool:
        """Whether a request may be issued."""
        position = self.note(self.last)[1] if self.last else 0
        early = self.image.instrs[i]["op"] == "load" and self.note(i)[3] <= position
        return wave == self.wave and (
            self.is_next(i) or early and not self.is_past(i, self.waiting[wave, i])
        )

    def effect(self, i: int, values: list[int]) -> int:
        """The request's effect on memory, and its answer."""
        instr = self.image.instrs[i]
        op, number = instr["op"], (instr["with"] or 0) - 1
        if op == "load":
            return self.cells[number][values[0]]
        if op == "store":
            self.cells[number][values[0]] = values[1]
        if op == "in" and self.words:
            return self.words.pop(0)
        if op == "out":
            self.printed.append(values[0])
        return 0

    def issue(self, wave: int, i: int) -> None:
        """A request is issued, and the chain passes what it can."""
        values = self.waiting[wave, i]
        if self.is_past(i, values):
            self.fault = self.image.names[self.image.instrs[i]["with"] - 1]
            return
        del self.waiting[wave, i]
        self.send(self.image.instrs[i]["lists"][0], wave, self.effect(i, values))
        self.issued.add((wave, i))
        while passed := [j for w, j in self.issued if w == self.wave and self.is_next(j)]:
            self.issued.remove((self.wave, passed[0]))
            self.last = passed[0]
            if self.note(self.last)[2] == ".":
                self.wave, self.last = self.wave + 1, None

    def cycle(self) -> bool:
        """One cycle; whether anything happened."""
        old, happened = set(self.way), False
        while not self.fault and (ready := [r for r in self.waiting if self.may_issue(*r)]):
            self.issue(*min(ready, key=lambda request: self.note(request[1])[1]))
            happened = True
        if self.fault:
            return True
        for token in sorted(old):
            if not self.completes(token):
                self.match(token)
                happened = True
        for element in range(self.elements):
            full = [
                token for token in old
                if token in self.way and token[1] % self.elements == element and self.completes(token)
                and token[0] < self.wave + self.waves
            ]
            if full and self.fired < self.budget:
                self.match(min(full))
                happened = True
        return happened

    def run(self) -> "Run":
        """Cycle after cycle, until nothing happens."""
        while not self.fault and self.cycle():
            self.cycles += 1
        self.cycles += 1 if self.fault else 0
        return self

    def answer(self) -> str:
        """What `wsc grid --stats` answers."""
        end = f"fault {self.fault}" if self.fault else "budget" if self.way else "halt"
        stats = [] if self.fault else [f"firings {self.fired}", f"cycles {self.cycles}"]
        return "".join(f"{line}\n" for line in [*self.printed, end, *stats])


def run(text: str, elements: int, waves: int, budget: int = 100000) -> Run:
    """What a run of assembly with its input comes to."""
    text, _, words = text.partition("%input")
    return Run(Image(text), map(int, words.split()), elements, waves, budget).run()


if __name__ == "__main__":
    print(run(sys.stdin.read(), *map(int, sys.argv[1:])).answer(), end="")
