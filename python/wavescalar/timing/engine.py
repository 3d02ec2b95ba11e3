"""A run of threads on a machine, event by event, from one cycle in which something is due to the next.

In a cycle come, in this order: requests that reach a store buffer; what partial store queues do; issues, of each
thread the first in its chain of those that may; tokens that reach their elements, by wave, thread, instruction and
port; and on each element, by number, the firing of the first instance by wave, thread and instruction that is complete
and permitted. What is sent in a cycle comes in a later one.
"""

from __future__ import annotations

from heapq import heapify, heappop, heappush
from typing import Any

from wavescalar.isa import WORDS
from wavescalar.timing.buffers import Buffers
from wavescalar.timing.chain import Request
from wavescalar.timing.flat import CONST, COPY, LOW, OF_TWO, PHI, SEND, SHIFT, STEER, Arcs, Flat
from wavescalar.timing.parameters import Values
from wavescalar.timing.record import ADDRESS, BY_TOKEN, BY_WAVES, FIRING, Record
from wavescalar.timing.shape import Links
from wavescalar.timing.tables import Instructions, Tables

# A token: its slot and, in the lower bits, one more than the event that sent it, by which its value is kept. One
# that its element didn't take yet comes again as it was.
# An instance that waits on an element: its number, the slot of its last token, three values, when its first token
# came, why it waited, one more than the event, when what that one sent came, and since when it could fire.
Item = tuple[Any, ...]

# cycles from the present one on whose tokens lie in a ring of lists; a power of two
RING = 1024
ROUND = RING - 1
# words from 2^63 on are kept as negative numbers
WORD, TOP = 1 << 64, (1 << 63) - 1


def signed(value: int) -> int:
    """A number's low 64 bits, as they are kept."""
    value %= WORDS
    return value - WORD if value > TOP else value


class Stuck(Exception):
    """A run that rests with instances that may fire: a fault of this program."""


class Half:
    """A store whose address may go alone: its operands, when its first token came, what it waited for last, and its
    request once its address has gone."""

    __slots__ = ("index", "value", "first", "told", "request")

    def __init__(self, now: int) -> None:
        self.index, self.value = -1, -1
        self.first, self.told = now, (0, 0, 0)
        self.request: Request | None = None


class Run:
    """The state of a run, and its record."""

    def __init__(self, flat: Flat, machine: Values, budget: int) -> None:
        self.flat, self.machine, self.shape, self.budget = flat, machine, flat.shape, budget
        self.record = Record(flat)
        self.links = Links(self.shape) if any(self.shape.widths) else None
        self.buffers = Buffers(self, flat, machine, self.record, self.links)
        self.chains, self.homes, self.cache = self.buffers.chains, self.buffers.homes, self.buffers.cache
        bounded = machine["element.entries"] > 0
        self.tables = Tables(machine, flat.place, flat.local, self.shape.count) if bounded else None
        self.stock = Instructions(machine, flat.place)
        self.waves, self.pipelined = machine["waves"], machine["operations.pipelined"]
        self.inputs, self.miss = machine["element.inputs"], machine["element.miss"]
        self.thread = [program.number for program in flat.program]
        # for each thread the instance from which on none may fire, and instances that wait for its waves
        self.ends = [(1 + self.waves) * flat.count for _ in self.chains]
        self.asleep: list[list[Item]] = [[] for _ in self.chains]
        # tokens by cycle, None where nothing is due: of the next cycles in a ring, with in how many of them something
        # is due, of later ones by themselves
        self.now = self.many = 0
        self.ring: list[list[int] | None] = [None] * RING
        self.far: dict[int, list[int]] = {}
        self.far_times: list[int] = []
        # elements that are free again, by cycle
        self.freed: dict[int, list[int]] = {}
        self.sent = self.record.sent
        # when tokens came that were put off, and those that memory has answered
        self.came: dict[int, int] = {}
        self.missed: set[int] = set()
        # instances with one token of two: when that came, and the event; with fewer than three of three: events, when
        # the first came, and how many lack
        self.held: dict[int, int] = {}
        self.joined: dict[int, list[int]] = {}
        self.halves: dict[int, Half] = {}
        # for each element the instances with all tokens that may fire, as a heap; elements with some
        self.ready: list[list[Item]] = [[] for _ in range(self.shape.count)]
        self.active: list[int] = []
        self.is_active = [False] * self.shape.count
        self.full = self.fired = self.ended = 0
        # where it is a list, each operand's way: when it leaves and comes, and its two ends
        self.noted: list[tuple[int, int, int, int]] | None = None

    def at(self, cycle: int) -> list[int]:
        """Something is due in a cycle: the tokens that come then, to which more may be added."""
        if cycle < self.now + RING:
            here = self.ring[cycle & ROUND]
            if here is not None:
                return here
            self.many += 1
            made: list[int] = []
            self.ring[cycle & ROUND] = made
            return made
        if cycle not in self.far:
            self.far[cycle] = []
            heappush(self.far_times, cycle)
        return self.far[cycle]

    def send(self, arcs: Arcs, wave: int, value: int, event: int, left: int, now: int) -> None:
        """Tokens leave for all destinations of a list."""
        arcs.used += 1
        self.sent[event + 1] = value if 0 <= value <= TOP else signed(value)
        base = wave * self.flat.wide << SHIFT | event + 1
        if self.links or self.noted is not None:
            self.send_each(arcs, base, left, now)
            return
        ring, end = self.ring, now + RING
        for slot, cycles in arcs.to:
            cycle = left + cycles
            here = ring[cycle & ROUND] if cycle < end else None
            if here is None:
                here = self.at(cycle)
            here.append(base + slot)

    def send_each(self, arcs: Arcs, base: int, left: int, now: int) -> None:
        """Likewise where links have a width, or ways are noted."""
        for (slot, cycles), links, (source, to) in zip(arcs.to, arcs.links, arcs.ends):
            cycle = left + cycles + (self.links.wait(links, left, now) if self.links and links else 0)
            if self.noted is not None:
                self.noted.append((left, cycle, source, to))
            self.at(cycle).append(base + slot)

    def go(self) -> Run:
        """Runs to the end."""
        for slot in self.flat.start():
            self.at(1).append(slot << SHIFT)
        ring = self.ring
        while (self.many or self.far_times) and self.ended < len(self.chains):
            now = self.now + 1
            if self.many:
                while ring[now & ROUND] is None:
                    now += 1
            else:
                now = self.far_times[0]
            self.now = now
            while self.far_times and self.far_times[0] < now + RING:
                cycle = heappop(self.far_times)
                ring[cycle & ROUND] = self.far.pop(cycle)
                self.many += 1
            tokens = ring[now & ROUND]
            ring[now & ROUND] = None
            self.many -= 1
            self.cycle(now, tokens or [])
        self.record.end()
        if self.full and self.fired < self.budget:
            raise Stuck(f"{self.full} instances are complete and none may fire")
        return self

    def cycle(self, now: int, tokens: list[int]) -> None:
        """One cycle."""
        buffers, record = self.buffers, self.record
        if now in buffers.requests or now in buffers.data:
            buffers.file(now)
        issues, requests = buffers.issues(now) if buffers.pending else (0, 0)
        if self.ended:
            tokens = [token for token in tokens if self.is_live(token >> SHIFT + 2)]
        if tokens:
            if len(tokens) > 1:
                tokens.sort()
            self.arrive(now, self.admitted(now, tokens) if self.inputs or self.tables else tokens)
        if self.freed and now in self.freed:
            for element in self.freed.pop(now):
                self.activate(element)
        fires = self.fire_all(now) if self.active else 0
        record.marks.append(now)
        record.marks.append(len(record.events))
        record.rows.extend((fires, issues, len(tokens), self.full,
                            len(self.held) + len(self.joined) + len(self.halves), requests, self.chains[0].wave))

    # Threads.

    def is_live(self, key: int) -> bool:
        """Whether the thread of an instance hasn't come to an index fault."""
        return self.chains[self.thread[key % self.flat.count]].fault is None

    def end(self, number: int) -> None:
        """A thread has come to an index fault: nothing of it happens any more."""
        self.ended += 1
        self.full -= len(self.asleep[number])
        self.asleep[number] = []
        for element, heap in enumerate(self.ready):
            if live := [item for item in heap if self.is_live(item[0])]:
                heapify(live)
            self.full -= len(heap) - len(live)
            self.ready[element] = live
        self.held = {key: token for key, token in self.held.items() if self.is_live(key)}
        self.joined = {key: values for key, values in self.joined.items() if self.is_live(key)}
        self.halves = {key: half for key, half in self.halves.items() if self.is_live(key)}

    def wake(self, now: int, number: int) -> None:
        """A chain has come to another wave: instances that waited for it may fire."""
        end = self.ends[number] = (self.chains[number].wave + self.waves) * self.flat.count
        asleep, told = self.asleep[number], (BY_WAVES, self.chains[number].event + 1, now, now)
        while asleep and asleep[0][0] < end:
            item = heappop(asleep)
            self.wait(self.flat.place[item[0] % self.flat.count], (*item[:6], *told))

    # Tokens.

    def admitted(self, now: int, tokens: list[int]) -> list[int]:
        """Those of the tokens that their elements take in this cycle; the others come again: where an element takes
        no more in the next cycle, where one finds no entry when memory has answered."""
        place, tables, inputs = self.flat.place, self.tables, self.inputs
        count, missed = self.flat.count, self.missed
        refused: set[int] = set()
        taken: dict[int, int] = {}
        for token in tokens:
            if missed and token in missed:
                missed.remove(token)
                continue
            key = token >> SHIFT + 2
            instr = key % count
            if inputs:
                element = place[instr]
                taken[element] = taken.get(element, 0) + 1
                if taken[element] > inputs:
                    self.record.put_off[element] += 1
                    self.put_off(token, now, now + 1)
                    refused.add(token)
                    continue
            if tables and not tables.admit(key, instr, key // count):
                self.record.misses[place[instr]] += 1
                if self.miss:
                    self.put_off(token, now, now + self.miss)
                    missed.add(token)
                    refused.add(token)
        return [token for token in tokens if token not in refused] if refused else tokens

    def put_off(self, token: int, now: int, cycle: int) -> None:
        """A token comes again in another cycle."""
        self.came.setdefault(token, now)
        self.at(cycle).append(token)

    def value(self, number: int) -> int:
        """What an event sent, by one more than its number."""
        value = self.sent[number]
        return value if value >= 0 else value + WORD

    def arrive(self, now: int, tokens: list[int]) -> None:
        """Tokens reach their elements, in this order."""
        flat, held, sent = self.flat, self.held, self.sent
        count, ports, parted, late = flat.count, flat.ports, flat.parted, self.came
        for token in tokens:
            slot, number = token >> SHIFT, token & LOW
            key = slot >> 2
            instr = key % count
            came = late.pop(token, now) if late else now
            value, many = sent[number], ports[instr]
            if value < 0:
                value += WORD
            if many == 1:
                self.enter(instr)
                self.complete(instr, (key, slot, value, 0, 0, now, BY_TOKEN, number, came, now))
            elif parted[instr]:
                self.arrive_half(slot, value, (number, came, now))
            elif many == 3:
                self.join(instr, slot, number, came, now)
            elif key in held:
                first = held.pop(key)
                other = sent[first & LOW]
                if other < 0:
                    other += WORD
                one, two = (other, value) if slot & 1 else (value, other)
                self.complete(instr, (key, slot, one, two, 0, first >> SHIFT, BY_TOKEN, number, came, now))
            else:
                held[key] = now << SHIFT | number
                self.record.events.append(slot)
                self.enter(instr)

    def enter(self, instr: int) -> None:
        """The first token of an instance comes."""
        record, element = self.record, self.flat.place[instr]
        many = record.now_in[element] = record.now_in[element] + 1
        if many > record.most_in[element]:
            record.most_in[element] = many

    def join(self, instr: int, slot: int, number: int, came: int, now: int) -> None:
        """A token comes to an instance of three operands."""
        key = slot >> 2
        values = self.joined.get(key)
        if values is None:
            values = self.joined[key] = [0, 0, 0, now, 3]
            self.enter(instr)
        values[slot & 3] = number
        values[4] -= 1
        if values[4]:
            self.record.events.append(slot)
            return
        del self.joined[key]
        one, two, three = self.value(values[0]), self.value(values[1]), self.value(values[2])
        self.complete(instr, (key, slot, one, two, three, values[3], BY_TOKEN, number, came, now))

    def arrive_half(self, slot: int, value: int, told: tuple[int, int, int]) -> None:
        """A token comes to a store whose address may go alone."""
        key, port = slot >> 2, slot & 3
        half, instr = self.halves.get(key), key % self.flat.count
        if half is None:
            half = self.halves[key] = Half(told[2])
            self.enter(instr)
        half.told = told
        if port == 0:
            half.index = value
        else:
            half.value = value
        if port == 0 or half.request:
            self.complete(instr, (key, slot, half, 0, 0, half.first, BY_TOKEN, *told))

    def complete(self, instr: int, item: Item) -> None:
        """An instance has all its tokens: it waits on its element, or first for its wave."""
        key = item[0]
        self.full += 1
        if self.tables:
            self.tables.complete(key, instr, key // self.flat.count)
        thread = self.thread[instr]
        if key < self.ends[thread]:
            self.wait(self.flat.place[instr], item)
        else:
            heappush(self.asleep[thread], item)

    def wait(self, element: int, item: Item) -> None:
        """An instance waits on its element."""
        heap = self.ready[element]
        if heap:
            heappush(heap, item)
        else:
            heap.append(item)
        if not self.is_active[element]:
            self.is_active[element] = True
            self.active.append(element)
        if len(heap) > self.record.most_ready[element]:
            self.record.most_ready[element] = len(heap)

    def activate(self, element: int) -> None:
        """An element may have something to fire."""
        if not self.is_active[element]:
            self.is_active[element] = True
            self.active.append(element)

    # Firings.

    def fire_all(self, now: int) -> int:
        """Each element that may fires one instance; how many do."""
        free, fired, ready, elements = self.record.free_at, 0, self.ready, self.active
        if len(elements) > 1:
            elements.sort()
        more: list[int] = []
        self.active = more
        for element in elements:
            heap = ready[element]
            if heap and self.fired != self.budget:
                if free[element] <= now:
                    self.fire(now, element, heappop(heap) if len(heap) > 1 else heap.pop())
                    fired += 1
                    if heap:
                        more.append(element)
                        continue
                else:
                    self.at(free[element])
                    self.freed.setdefault(free[element], []).append(element)
            self.is_active[element] = False
        if more:
            self.at(now + 1)
        return fired

    def fire(self, now: int, element: int, item: Item) -> None:
        """An instance fires: its result leaves, or its request."""
        flat, record = self.flat, self.record
        key, slot, one, two, three, first, why, number, came, could = item
        wave, instr = divmod(key, flat.count)
        self.full -= 1
        swap = self.stock.fetch(instr) if self.stock.held else 0
        takes = flat.work[instr] + swap
        free = now + 1 + (swap if self.pipelined else takes)
        record.fires[element] += 1
        record.busy[element] += free - now
        record.free_at[element] = free
        if flat.parted[instr]:
            self.fire_half(now, item, takes)
            return
        self.fired += 1
        if self.tables:
            self.tables.free(key, instr, wave)
        record.now_in[element] -= 1
        record.waited[element] += now - could
        record.stayed[element] += now - first
        left, kind = now + takes, flat.kind[instr]
        this = record.event(FIRING, key, now, why, number - 1, left, came, could)
        record.events.append(slot)
        if kind == OF_TWO:
            self.send(flat.out[instr][0], wave, flat.does[instr](one, two), this, left, now)
        elif kind == STEER:
            self.send(flat.out[instr][0 if two else 1], wave, one, this, left, now)
        elif kind == COPY:
            self.send(flat.out[instr][0], wave, one, this, left, now)
        elif kind == CONST:
            self.send(flat.out[instr][0], wave, flat.arg[instr], this, left, now)
        elif kind == SEND:
            self.send(flat.landing(instr, one), wave, two, this, left, now)
        elif kind == PHI:
            self.send(flat.out[instr][0], wave, one if three else two, this, left, now)
        else:
            self.buffers.ask(instr, wave, (one, two), this, left, now)

    def fire_half(self, now: int, item: Item, takes: int) -> None:
        """A store fires: with both operands, with its address alone, or later with its data."""
        record, key, half = self.record, item[0], item[2]
        wave, instr = divmod(key, self.flat.count)
        element, kind = self.flat.place[instr], FIRING if half.value >= 0 else ADDRESS
        # data that came while the address waited is what it waited for
        why, told = (BY_TOKEN, half.told) if half.told[2] > item[9] else (item[6], item[7:])
        this = record.event(kind, key, now, why, told[0] - 1, now + takes, told[1], told[2])
        record.waited[element] += now - told[2]
        if kind == FIRING:
            self.fired += 1
            if self.tables:
                self.tables.free(key, instr, wave)
            record.now_in[element] -= 1
            record.stayed[element] += now - half.first
            del self.halves[key]
        if half.request is None:
            operands = half.index, max(half.value, 0)
            half.request = self.buffers.ask(instr, wave, operands, this, now + takes, now)
            half.request.bare = kind == ADDRESS
        else:
            self.buffers.tell(half.request, half.value, this, now + takes, now)
