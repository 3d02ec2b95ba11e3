#!/usr/bin/env python3
"""Times `wsc replay` on a trace of four million firings, and `wsc trace` at its largest budget.

The trace is that of a loop, by a core of this script's own that takes the oldest token first.
"""

import pathlib
import re
import subprocess
import time
from collections import deque
from collections.abc import Callable, Iterable

ROOT = pathlib.Path(__file__).resolve().parent.parent
PROGRAM = ROOT / "crates" / "wsc" / "out" / "wsc"
JOB = "proc main() { var i, s, n; read n; while (i < n) { i = i + 1; s = s + i; } print s; }"
MASK = 2**64 - 1
ALU: dict[str, Callable[[int, int], int]] = {"add": lambda a, b: (a + b) & MASK, "lt": lambda a, b: int(a < b)}
MEMORY = {"in", "out", "nop", "halt"}
# An instruction and a port; the parts of a note; an operation, its number, its note, and two lists.
Dest = tuple[int, int]
Note = tuple[str, ...]
Code = tuple[str, int, Note | None, list[Dest], list[Dest]]
NOTE = re.compile(r"<([.?]|\d+), (\d+), ([.?]|\d+)>\.(\d+)")


def program_of(assembly: str) -> tuple[dict[int, Code], list[Dest]]:
    """The instructions of an assembly by number: operation, its number, note and two lists; and the pulse's list."""
    code: dict[int, Code] = {}
    start: list[Dest] = []
    for line in assembly.splitlines():
        if line.startswith("pad 0 ") and not start:
            start = dests_of(line[6:])
        number, colon, rest = line.partition(": ")
        if not (colon and number.isdigit()):
            continue
        head, _, lists = rest.partition("->")
        note = NOTE.search(head)
        words = head.split()
        first, _, second = lists.partition("|")
        constant = int(words[1]) if words[0] == "const" else 0
        code[int(number)] = (words[0], constant, note.groups() if note else None, dests_of(first), dests_of(second))
    return code, start


def dests_of(text: str) -> list[Dest]:
    """The instructions and ports of a list."""
    return [(int(instr), int(port)) for instr, _, port in (dest.partition(".") for dest in text.split())]


def trace_of(assembly: str, word: int) -> tuple[list[str], int]:
    """The events of a run on one input word, and how many instances fired."""
    code, start = program_of(assembly)
    way = deque((0, instr, port, 0) for instr, port in start)
    held: dict[Dest, dict[int, int]] = {}
    asked: dict[Dest, int] = {}
    events: list[str] = []
    last: Note | None = None
    fired, current = 0, 1

    def send(dests: Iterable[Dest], wave: int, value: int) -> None:
        way.extend((wave, instr, port, value) for instr, port in dests)

    while way:
        wave, instr, port, value = way.popleft()
        events.append(f"match {wave} {instr} {port}\n")
        name, constant, note, first, second = code[instr]
        ports = 2 if name in ALU or name == "steer" else 1
        values = held.setdefault((wave, instr), {})
        values[port] = value
        if len(values) < ports:
            continue
        del held[wave, instr]
        fired += 1
        if name in MEMORY:
            asked[wave, instr] = values[0]
        elif name == "steer":
            send(first if values[1] else second, wave, values[0])
        elif name == "advance":
            send(first, wave + 1, values[0])
        else:
            send(first, wave, ALU[name](values[0], values[1]) if name in ALU else constant if name == "const" else values[0])
        while ready := [k for k in asked if k[0] == current and is_next(last, note_of(code[k[1]]))]:
            key = ready[0]
            del asked[key]
            events.append(f"issue {key[0]} {key[1]}\n")
            name, _, _, first, _ = code[key[1]]
            send(first, key[0], word if name == "in" else 0)
            note = note_of(code[key[1]])
            current, last = (current + 1, None) if note[2] == "." else (current, note)
    return events, fired


def note_of(instr: Code) -> Note:
    """The note of a memory operation."""
    assert instr[2] is not None
    return instr[2]


def is_next(last: Note | None, note: Note) -> bool:
    """Whether an operation of the current wave is next behind the last one that was passed."""
    return note[0] == "." if last is None else last[2] == note[1] or note[0] == last[1]


def timed(words: list[str], text: bytes) -> tuple[float, bytes]:
    """The seconds of a call by the clock, and what it prints."""
    begin = time.perf_counter()
    ran = subprocess.run([PROGRAM, *words], input=text, stdout=subprocess.PIPE, check=False)
    return time.perf_counter() - begin, ran.stdout


def main() -> None:
    assembly = subprocess.run([PROGRAM, "compile"], input=JOB.encode(), stdout=subprocess.PIPE, check=True).stdout.decode()
    few = trace_of(assembly, 10)[1]
    each = (trace_of(assembly, 20)[1] - few) // 10
    for firings in (1_000_000, 2_000_000, 4_000_000):
        turns = (firings - few) // each + 10
        events, fired = trace_of(assembly, turns)
        text = f"{assembly}%input\n{turns}\n%trace\n{''.join(events)}".encode()
        took, answer = timed(["replay"], text)
        last = answer.decode().split("\n")[-3:-1]
        print(f"replay of {fired} firings, {len(events)} events, {len(text)} bytes: {took:.2f} s, {last}")
        text = f"{assembly}%input\n{turns}\n".encode()
    took, answer = timed(["trace"], text)
    print(f"trace of 100000 firings, {len(answer)} bytes: {took:.2f} s")
    took, answer = timed(["replay"], answer)
    print(f"replay of that: {took:.2f} s, {answer.decode().split(chr(10))[-3:-1]}")


if __name__ == "__main__":
    main()
