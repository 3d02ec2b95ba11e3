"""The chain of memory operations of a thread: which request is next, which load may be early, what an operation does.

It knows the order alone, and no time: engine.py says when a request comes and when it is issued. With partial store
queues a store may pass in the chain by its address alone; operations of its cell then wait behind it in a queue.
"""

from __future__ import annotations

from bisect import insort
from heapq import heappop, heappush

from wavescalar.timing.flat import NONE, Flat, Program
from wavescalar.timing.parameters import Values


class Request:
    """A request: instance, sequence number, operands, the event of its firing, when it came, and since which event a
    load may be early. `data` is the event of a late store's data, or -1, with when that came; `queued` and `before`
    are the events by which it came into a queue and to the front of it."""

    __slots__ = ("instr", "wave", "seq", "index", "value", "bare", "fired", "came", "since",
                 "data", "data_came", "queued", "before")

    def __init__(self, instr: int, wave: int, seq: int, operands: tuple[int, int], fired: int) -> None:
        self.instr, self.wave, self.seq, (self.index, self.value) = instr, wave, seq, operands
        self.fired, self.came, self.since = fired, 0, -1
        self.bare, self.data, self.data_came = False, -1, 0
        self.queued, self.before = -1, -1

    def __lt__(self, other: Request) -> bool:
        """The order of the program, of two requests of a thread."""
        return (self.wave, self.seq) < (other.wave, other.seq)


class Wave:
    """What has come of one wave: requests by number and by the number before theirs, loads that may be early or
    will, and what was issued and not passed."""

    __slots__ = ("by_seq", "by_pred", "early", "later", "issued", "issued_pred")

    def __init__(self) -> None:
        self.by_seq: dict[int, Request] = {}
        self.by_pred: dict[int, Request] = {}
        self.early: list[int] = []
        self.later: list[tuple[int, int]] = []
        self.issued: dict[int, int] = {}
        self.issued_pred: dict[int, int] = {}


class Chain:
    """The chain of a thread, its requests, and what is outside: cells, input and printed words."""

    def __init__(self, flat: Flat, program: Program, machine: Values) -> None:
        self.flat, self.program, self.ripples = flat, program, machine["buffer.ripples"]
        arrays = program.image.arrays
        self.cells: list[list[int]] = [[], *([0] * length for _, length in arrays[1:])]
        self.words, self.read = program.words, 0
        self.printed: list[int] = []
        self.wave, self.last, self.position = 1, 0, 0
        # the event since which the chain stands where it does, and for each wave the event with which its turn came
        self.event, self.turns = -1, [-1, -1]
        self.waves: dict[int, Wave] = {}
        self.waiting = 0
        self.fault: str | None = None
        # partial store queues: by array and index what waits there, in the order of the program
        self.most: int = machine["buffer.queues"]
        self.queues: dict[tuple[int, int], list[Request]] = {}

    def file(self, request: Request) -> None:
        """A request comes."""
        flat, i = self.flat, request.instr
        here = self.waves.get(request.wave)
        if here is None:
            here = self.waves[request.wave] = Wave()
        here.by_seq[flat.seq[i]] = request
        if flat.pred[i] >= NONE:
            here.by_pred[flat.pred[i]] = request
        self.waiting += 1
        if self.ripples and flat.op[i] == "load" and request.index < len(self.cells[flat.arg[i]]):
            if request.wave == self.wave and flat.ripple[i] <= self.position:
                heappush(here.early, flat.seq[i])
            else:
                heappush(here.later, (flat.ripple[i], flat.seq[i]))

    def next_request(self, here: Wave) -> Request | None:
        """The request right behind the operation that was passed last, where it is there."""
        if self.last == 0:
            return here.by_pred.get(NONE)
        flat, last = self.flat, self.last
        return here.by_seq.get(flat.succ[last]) or here.by_pred.get(flat.seq[last])

    def next_issued(self, here: Wave) -> int:
        """Likewise the instruction of one that was issued and not passed, or 0."""
        if self.last == 0:
            return here.issued_pred.get(NONE, 0)
        flat, last = self.flat, self.last
        return here.issued.get(flat.succ[last], 0) or here.issued_pred.get(flat.seq[last], 0)

    def is_past(self, request: Request) -> bool:
        """Whether it is a load or store past the end of its array."""
        i = request.instr
        return self.flat.op[i] in ("load", "store") and request.index >= len(self.cells[self.flat.arg[i]])

    def may(self, request: Request) -> bool:
        """Whether the next request may be issued as far as queues go: a store without its data needs one, and an
        access past an end waits for its data and until all are empty."""
        if self.is_past(request):
            return not request.bare and not self.queues
        cell = self.flat.arg[request.instr], request.index
        return not request.bare or cell in self.queues or len(self.queues) < self.most

    def pick(self) -> tuple[Request | None, bool]:
        """The request that is issued next, if one may be: the first in the chain of those that may; and whether it
        stands right behind the operation that was passed last."""
        here = self.waves.get(self.wave)
        if here is None or not here.by_seq:
            return None, False
        found = self.next_request(here)
        if self.most and found is not None and not self.may(found):
            found = None
        while here.later and here.later[0][0] <= self.position:
            _, seq = heappop(here.later)
            if seq in here.by_seq:
                here.by_seq[seq].since = self.event
                heappush(here.early, seq)
        while here.early and here.early[0] not in here.by_seq:
            heappop(here.early)
        if here.early and (found is None or here.early[0] < self.flat.seq[found.instr]):
            return here.by_seq[here.early[0]], False
        return found, True

    def queue_of(self, request: Request) -> list[Request] | None:
        """The queue that the request goes to when it is issued, if it does."""
        if self.most and self.flat.op[request.instr] in ("load", "store"):
            cell = self.flat.arg[request.instr], request.index
            if request.bare:
                return self.queues.setdefault(cell, [])
            return self.queues.get(cell)
        return None

    def issue(self, request: Request, event: int) -> int | None:
        """Issues it: does it, or puts it into a queue, and lets the chain pass what it now can. Its result, or None of
        one that faults or waits in a queue."""
        flat, i = self.flat, request.instr
        here = self.waves[self.wave]
        result: int | None = None
        if (queue := self.queue_of(request)) is not None:
            request.queued = event
            insort(queue, request)
        else:
            result = self.do(request)
            if self.fault is not None:
                return None
        seq, pred = flat.seq[i], flat.pred[i]
        del here.by_seq[seq]
        here.issued[seq] = i
        if pred >= NONE:
            del here.by_pred[pred]
            here.issued_pred[pred] = i
        self.waiting -= 1
        while passed := self.next_issued(here):
            del here.issued[flat.seq[passed]]
            here.issued_pred.pop(flat.pred[passed], None)
            self.last, self.position, self.event = passed, flat.seq[passed], event
            if flat.succ[passed] == NONE:
                del self.waves[self.wave]
                self.wave, self.last, self.position = self.wave + 1, 0, 0
                self.turns.append(event)
                break
        return result

    def follow(self, cell: tuple[int, int], event: int) -> tuple[Request, int | None]:
        """Does the first of a queue, which has its data: the request and its result."""
        queue = self.queues[cell]
        request = queue.pop(0)
        if queue:
            queue[0].before = event
        else:
            del self.queues[cell]
        return request, self.do(request)

    def do(self, request: Request) -> int | None:
        """The operation's effect on what is outside, and its result."""
        i = request.instr
        op, arg = self.flat.op[i], self.flat.arg[i]
        if op == "load" or op == "store":
            cells = self.cells[arg]
            if request.index >= len(cells):
                self.fault = self.program.image.arrays[arg][0] or f"hidden {arg}"
                return None
            if op == "load":
                return cells[request.index]
            cells[request.index] = request.value
        elif op == "in":
            self.read += 1
            return self.words[self.read - 1] if self.read <= len(self.words) else 0
        elif op == "out":
            self.printed.append(request.index)
        return 0
