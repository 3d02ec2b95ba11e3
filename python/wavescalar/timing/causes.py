"""What the cycles of a run go to: the path back from its last event, each event to what it waited for last."""

from __future__ import annotations

from wavescalar.timing.engine import Run
from wavescalar.timing.record import BY_CHAIN, BY_QUEUE, BY_TOKEN, BY_WAVES, FOLLOW, ISSUE
from wavescalar.timing.shape import BUFFER, CLASSES

# the parts of a path, and what each of them is
PARTS = {
    "operations": "operations that take more than a cycle, and instructions that are swapped in",
    **{f"way {name}": f"operands on their way: {name}" for name in CLASSES[:-1]},
    "way buffer": "requests and answers between elements and store buffers",
    "links": "operands, requests and answers that waited for a link",
    "matching": "tokens that found no entry, or came too many at a time",
    "busy elements": "complete instances that waited for their element",
    "buffer latency": "requests in the store buffer",
    "buffer issues": "requests that might be issued and waited for a cycle, or for a partial store queue",
    "handover": "from the end of a wave to the next",
    "queues": "operations in partial store queues behind others",
    "data": "answers of the data cache",
}


class Path:
    """The path: the cycles of each part, which add up to those of the run, and by what its events waited."""

    def __init__(self, run: Run) -> None:
        record = run.record
        self.parts = dict.fromkeys(PARTS, 0)
        self.steps, self.by = 0, [0, 0, 0, 0]
        event = len(record.when) - 1
        # the last event may stand before the last cycle, in which a token came that completed nothing
        self.end = record.when[event] if event >= 0 else 0
        while event >= 0:
            self.steps += 1
            self.by[record.why[event]] += 1
            for part, cycles in parts_of(run, event):
                self.parts[part] += cycles
            event = record.cause[event]


def parts_of(run: Run, event: int) -> list[tuple[str, int]]:
    """The cycles from what an event waited for to the event, by parts."""
    record = run.record
    cause, in_buffer = record.cause[event], record.kind[event] >= ISSUE
    came, could, when = record.came[event], record.could[event], record.when[event]
    began, left = (record.when[cause], record.leaves[cause]) if cause >= 0 else (0, 0)
    made: list[tuple[str, int]] = []
    if record.why[event] == BY_TOKEN:
        made.append(("data" if cause >= 0 and record.kind[cause] >= ISSUE else "operations", left - began))
        way, usual = way_of(run, cause, event, came - left)
        made += [(way, usual), ("links", came - left - usual)]
        made.append(("buffer latency" if in_buffer else "matching", could - came))
    elif record.why[event] == BY_CHAIN:
        made.append(("handover", could - came))
    elif record.why[event] == BY_QUEUE:
        made.append(("queues", could - came))
    else:
        assert record.why[event] == BY_WAVES and came == could
    last = "queues" if record.kind[event] == FOLLOW else "buffer issues" if in_buffer else "busy elements"
    made.append((last, when - could))
    return made


def way_of(run: Run, cause: int, event: int, took: int) -> tuple[str, int]:
    """The part to which the way of a token or request belongs that took so many cycles, and how many it takes where
    no link is waited for; looks into the table of waves belong to it."""
    flat, record = run.flat, run.record
    if cause < 0:
        return "way element", took
    here, there = (flat.place[record.key[it] % flat.count] for it in (cause, event))
    asks, answers = record.kind[event] >= ISSUE, record.kind[cause] >= ISSUE
    if not asks and not answers:
        kind, cycles = flat.shape.way(here, there)
        return f"way {CLASSES[kind]}", cycles
    if run.links is None or asks and run.homes.how == "table":
        return f"way {CLASSES[BUFFER]}", took
    wave, instr = divmod(record.key[cause if answers else event], flat.count)
    home = run.homes.of(flat.program[instr].number, wave)
    return f"way {CLASSES[BUFFER]}", min(flat.shape.to_buffer(there if answers else here, home), took)
