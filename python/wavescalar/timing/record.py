"""What is noted of a run: its events in order, what each waited for, and counts by cycle and by element."""

from __future__ import annotations

from array import array
from collections.abc import Iterator

from wavescalar.timing.flat import Flat

# What an event waited for last: a token, request or data, that the chain came near enough to its wave, its place in
# the chain, or its place in a partial store queue.
BY_TOKEN, BY_WAVES, BY_CHAIN, BY_QUEUE = range(4)

# A firing of an instance, or the half of a store that sends its address; an issue, and what is done in a queue.
FIRING, ADDRESS, ISSUE, FOLLOW = range(4)

# The counts of a cycle, at its end, behind its number and that of the events up to it.
ROW = ("firings", "issues", "tokens", "ready", "partial", "requests", "wave")


class Record:
    """Flat arrays. `events` has each event of the trace: a slot for a match, ~(slot of port 0) for an issue. Those
    by firings and issues, in their order, have of each the kind, instance, cycle, and its cause."""

    def __init__(self, flat: Flat) -> None:
        count = flat.shape.count
        self.events = array("q")
        self.kind, self.why = array("b"), array("b")
        # the instance, the cycle, the event that it waited for last, when what this one sends leaves, when what that
        # one sent came, and when this event could be at first
        self.key, self.when, self.cause, self.leaves, self.came, self.could = (array("q") for _ in range(6))
        # by one more than an event, what it sent, as the engine keeps words
        self.sent = array("q", [0])
        # issues, four numbers each: the event, that of its firing, when the request could be issued at first, and
        # whether it was early
        self.issued = array("q")
        self.fires, self.waited, self.stayed = ([0] * count for _ in range(3))
        self.most_ready, self.now_in, self.most_in = ([0] * count for _ in range(3))
        self.misses, self.put_off, self.busy, self.free_at = ([0] * count for _ in range(4))
        # for each cycle in which something was due its number and that of the events up to its end, and its row
        self.marks, self.rows = array("q"), array("i")
        self.cycles = 0

    def event(self, kind: int, key: int, now: int, why: int, cause: int, leaves: int, came: int, could: int) -> int:
        """A firing or an issue; its number."""
        self.kind.append(kind)
        self.why.append(why)
        self.key.append(key)
        self.when.append(now)
        self.cause.append(cause)
        self.leaves.append(leaves)
        self.came.append(came)
        self.could.append(could)
        self.sent.append(0)
        return len(self.when) - 1

    def end(self) -> None:
        """Counts the cycles of the run: to the last one in which something happened."""
        marks, rows, wide = self.marks, self.rows, len(ROW)
        at = len(marks) // 2 - 1
        while at >= 0 and not rows[wide * at] and not rows[wide * at + 1] and (
                marks[2 * at + 1] == (marks[2 * at - 1] if at else 0)):
            at -= 1
        self.cycles = marks[2 * at] if at >= 0 else 0

    def by_cycle(self, name: str) -> Iterator[tuple[int, int]]:
        """The cycles in which something was due, with a count of each."""
        return zip(self.marks[::2], self.rows[ROW.index(name)::len(ROW)])

    def pieces(self) -> Iterator[tuple[int, array[int]]]:
        """The cycles in which something was due, with the events of each."""
        at, events, marks = 0, self.events, self.marks
        for cycle, end in zip(marks[::2], marks[1::2]):
            yield cycle, events[at:end]
            at = end
