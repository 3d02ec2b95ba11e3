"""The store buffers of a run: when requests come to them, are issued and answered.

A request is filed in the chain of its thread when it comes. In each cycle the first of each partial store queue is done
that has its data; then of each thread, by turns, those requests are issued that may be, the first in its chain first,
so many of a store buffer as it issues in a cycle.
"""

from __future__ import annotations

from typing import Any, Protocol

from wavescalar.timing.cache import Cache
from wavescalar.timing.chain import Chain, Request
from wavescalar.timing.flat import Arcs, Flat
from wavescalar.timing.homes import Homes
from wavescalar.timing.parameters import Values
from wavescalar.timing.record import BY_CHAIN, BY_QUEUE, BY_TOKEN, FOLLOW, ISSUE, Record
from wavescalar.timing.shape import Links


class Elements(Protocol):
    """What the store buffers ask of the run that they are part of."""

    noted: list[tuple[int, int, int, int]] | None

    def at(self, cycle: int) -> list[Any]:
        """Something is due in this cycle."""

    def send(self, arcs: Arcs, wave: int, value: int, event: int, left: int, now: int) -> None:
        """Tokens leave."""

    def wake(self, now: int, number: int) -> None:
        """A thread's chain has come to another wave."""

    def end(self, number: int) -> None:
        """A thread has come to an index fault."""


class Buffers:
    """All of them."""

    def __init__(self, run: Elements, flat: Flat, machine: Values, record: Record, links: Links | None) -> None:
        self.run, self.flat, self.shape, self.record, self.links = run, flat, flat.shape, record, links
        self.chains = [Chain(flat, program, machine) for program in flat.programs]
        self.homes = Homes(flat)
        self.cache = Cache(machine, self.shape.clusters)
        self.limit, self.handover = machine["buffer.issues"], machine["buffer.handover"]
        self.latency, self.queued = machine["buffer.latency"], machine["buffer.queues"] > 0
        # for each thread the cycle from which on it may issue
        self.open_at = [0 for _ in self.chains]
        # by cycle what comes: requests, and data of stores whose address came before
        self.requests: dict[int, list[Request]] = {}
        self.data: dict[int, list[tuple[Request, int, int]]] = {}
        # requests that aren't done
        self.pending = 0

    # From elements.

    def way(self, instr: int, wave: int, left: int, now: int) -> int:
        """When what an element sends comes to the store buffer of a wave."""
        element, number = self.flat.place[instr], self.flat.program[instr].number
        home, way = self.homes.ask(number, wave, element)
        if self.links:
            way += self.links.wait(self.shape.buffer_links(element, home, 0), left, now)
        if self.run.noted is not None:
            self.run.noted.append((left, left + way, element, ~home))
        return left + way

    def ask(self, instr: int, wave: int, operands: tuple[int, int], this: int, left: int, now: int) -> Request:
        """A request leaves for the store buffer."""
        request = Request(instr, wave, self.flat.seq[instr], operands, this)
        came = self.way(instr, wave, left, now) + self.latency
        request.came = came
        self.run.at(came)
        self.requests.setdefault(came, []).append(request)
        return request

    def tell(self, request: Request, value: int, this: int, left: int, now: int) -> None:
        """The data of a store follow its address."""
        came = max(self.way(request.instr, request.wave, left, now) + self.latency, request.came)
        request.value = value
        self.run.at(came)
        self.data.setdefault(came, []).append((request, this, came))

    def file(self, now: int) -> None:
        """What has come is filed."""
        for request in self.requests.pop(now, ()):
            self.chains[self.flat.program[request.instr].number].file(request)
            self.pending += 1
        for request, event, came in self.data.pop(now, ()):
            request.bare, request.data, request.data_came = False, event, came

    # Issues.

    def issues(self, now: int) -> tuple[int, int]:
        """Issues what may be in this cycle: how many it is, and how many requests then wait. Threads take turns."""
        many = waiting = 0
        counts: dict[int, int] = {}
        chains = self.chains
        for step in range(len(chains)):
            number = (now + step) % len(chains)
            chain = chains[number]
            if chain.fault is None:
                if chain.queues:
                    many += self.follow(now, number)
                if chain.waiting:
                    many += self.issue_some(now, number, counts)
                waiting += chain.waiting
        return many, waiting

    def issue_some(self, now: int, number: int, counts: dict[int, int]) -> int:
        """Issues what may be of a thread; `counts` has the issues of each store buffer."""
        chain, many = self.chains[number], 0
        while chain.fault is None:
            if now < self.open_at[number]:
                self.run.at(self.open_at[number])
                break
            request, is_next = chain.pick()
            if request is None:
                break
            home = self.homes.of(number, chain.wave)
            if self.limit and counts.get(home, 0) == self.limit:
                self.run.at(now + 1)
                break
            counts[home] = counts.get(home, 0) + 1
            self.issue(now, number, request, is_next)
            many += 1
        if chain.fault is not None:
            self.pending -= chain.waiting + sum(map(len, chain.queues.values()))
            self.run.end(number)
        return many

    def issue(self, now: int, number: int, request: Request, is_next: bool) -> None:
        """Issues a request, and sends its answer."""
        chain, record, flat = self.chains[number], self.record, self.flat
        i, wave = request.instr, request.wave
        home = self.homes.of(number, wave)
        since = max(chain.event if is_next else request.since, chain.turns[wave])
        key = wave * flat.count + i
        why, cause, came, could = self.reason(number, request, since)
        takes = self.access(number, request, home)
        this = record.event(ISSUE, key, now, why, cause, now + takes, came, could)
        record.events.append(~(4 * key))
        record.issued.extend((this, request.fired, request.came, not is_next))
        result = chain.issue(request, this)
        if chain.fault is not None:
            return
        if request.queued >= 0:
            self.run.at(now + 1)
        else:
            self.pending -= 1
            if result is not None and flat.instrs[i].lists[0]:
                self.run.send(flat.answer(i, home), wave, result, this, now + takes, now)
        if chain.wave > wave:
            to = self.homes.of(number, chain.wave, home)
            self.open_at[number] = now + self.handover + self.shape.between(home, to)
            self.run.wake(now, number)

    def access(self, number: int, request: Request, home: int) -> int:
        """The cycles that a load or store takes in the data cache, where it goes there now."""
        op, arg, chain = self.flat.op[request.instr], self.flat.arg[request.instr], self.chains[number]
        if op not in ("load", "store") or request.index >= len(chain.cells[arg]):
            return 0
        if self.queued and chain.queue_of(request) is not None:
            return 0
        return self.cache.access(op, self.flat.bases[number][arg] + request.index, home)

    def reason(self, number: int, request: Request, since: int) -> tuple[int, int, int, int]:
        """What the issue waited for last: the request, or the chain; why, and then the event, when what that one sent
        came, and since when the request could be issued."""
        record = self.record
        at = record.when[since] if since >= 0 else 0
        opened = max(at, self.open_at[number])
        if since >= 0 and opened > request.came:
            return BY_CHAIN, since, at, opened
        if request.data >= 0 and request.data_came > request.came:
            return BY_TOKEN, request.data, request.data_came - self.latency, request.data_came
        return BY_TOKEN, request.fired, request.came - self.latency, request.came

    def follow(self, now: int, number: int) -> int:
        """The first operation of each queue is done, where it has its data and wasn't put there in this cycle."""
        chain, record, many = self.chains[number], self.record, 0
        for cell in list(chain.queues):
            request = chain.queues[cell][0]
            here = max(request.queued, request.before)
            if request.bare or record.when[here] == now:
                continue
            at = record.when[here]
            why, cause, came, could = BY_QUEUE, here, at, at + 1
            if request.data >= 0 and request.data_came > at + 1:
                why, cause, could = BY_TOKEN, request.data, request.data_came
                came = could - self.latency
            i, wave = request.instr, request.wave
            home, this = self.homes.of(number, wave), len(record.when)
            _, result = chain.follow(cell, this)
            takes = self.access(number, request, home)
            record.event(FOLLOW, wave * self.flat.count + i, now, why, cause, now + takes, came, could)
            if result is not None and self.flat.instrs[i].lists[0]:
                self.run.send(self.flat.answer(i, home), wave, result, this, now + takes, now)
            self.run.at(now + 1)
            self.pending -= 1
            many += 1
        return many
