"""Cycles, waits and ways that were worked out by hand, and what the model makes of them."""

from __future__ import annotations

import pathlib
from collections.abc import Callable, Iterator

import pytest

from tests.places import EXAMPLES
from wavescalar.numbered import read
from wavescalar.programs import assembly_of
from wavescalar.timing.cache import Cache
from wavescalar.timing.engine import Run
from wavescalar.timing.flat import Flat
from wavescalar.timing.homes import Homes
from wavescalar.timing.model import run_of
from wavescalar.timing.parameters import Values, machine_of
from wavescalar.timing.record import ISSUE
from wavescalar.timing.shape import BETWEEN, POD, Links, Shape
from wavescalar.timing.tables import Tables
from wavescalar.timing.verify import verified


SEVEN = """wavescalar 1
wave 1
block 1
pad 0 1.0
1: advance -> 2.0 4.0
2: const 7 -> 3.0
3: out <., 1, 2>.1
4: halt <1, 2, .>.2
stop
end
"""


def four_instructions(program: str, folder: pathlib.Path) -> Iterator[str]:
    """Cycles of four instructions. The pulse comes to 1 in cycle 1. Instruction 2 is five cycles away, fires in 6,
    and takes 3 cycles, to 8; 3 is nine cycles away, and fires in 17; its request is four cycles on its way and two
    in the buffer: 23 is its issue. That of 4 came in 9, and is issued in 23 too, or in 24 where one is issued in a
    cycle."""
    (folder / "places").write_text("1 0\n2 2 # another pod\n3 8\n4 0\n")
    more: Values = {"domains": 4, "pods": 4, "elements": 2, "network.buffer": 4, "buffer.latency": 2, "operations.const": 3,
            "placement.policy": "file", "placement.file": str(folder / "places"), "network.element": 2}
    for issues, cycles in ((0, 23), (1, 24)):
        run = run_of(SEVEN, machine_of("", {**more, "buffer.issues": issues}))
        if run.record.cycles != cycles or verified(program, run):
            yield f"by hand: {run.record.cycles} cycles and not {cycles}"


def small() -> Iterator[str]:
    """A cache of two lines, and a matching table of one entry, worked out by hand."""
    more = {"cache.sets": 1, "cache.ways": 2, "cache.line": 4, "cache.hit": 1, "cache.miss": 9}
    cache = Cache(machine_of("", more), 1)
    cells = (0, 5, 3, 8, 4, 8)
    if (told := [cache.access("load", cell, 0) for cell in cells]) != [9, 9, 1, 9, 9, 1]:
        yield f"the cache takes {told} for {cells}"
    tables = Tables(machine_of("", {"element.entries": 1, "element.ways": 1, "waves": 1}), [0], [0], 1)
    # the first of 7 has the entry; 8 takes it; 7 takes it back and is complete, so that 8 stays in memory
    told = [tables.admit(key, 0, 0) for key in (7, 7, 8, 7)]
    tables.complete(7, 0, 0)
    told.append(tables.admit(8, 0, 0))
    tables.free(7, 0, 0)
    told += [tables.admit(8, 0, 0), tables.admit(8, 0, 0)]
    if told != [True, True, False, False, False, False, True]:
        yield f"the matching table tells {told}"


LATE = """wavescalar 1
array a 2
wave 1
block 1
pad 0 1.0
1: advance -> 2.0 3.0 4.0 11.0
2: in <., 1, 2>.1 -> 5.0 5.1
3: const 0 -> 6.0 8.0
4: const 1 -> 7.0
5: add -> 6.1
6: store 1 <1, 2, 3>.2
7: load 1 <2, 3, 4>.2 -> 9.0
8: load 1 <3, 4, 5>.2 -> 10.0
9: out <4, 5, 6>.5
10: out <5, 6, 7>.6
11: halt <6, 7, .>.7
stop
end
%input
4
"""


def issued(run: Run, op: str) -> list[int]:
    """The cycles in which operations of a kind are issued."""
    record, flat = run.record, run.flat
    return [when for kind, key, when in zip(record.kind, record.key, record.when)
            if kind == ISSUE and flat.op[key % flat.count] == op]


def late_store(program: str) -> Iterator[str]:
    """A store whose data come late, where all else takes a cycle. The pulse comes in 1, instructions 2, 3, 4 and 11
    fire in 2, and 7 and 8 in 3; the word is read in 3, 5 fires in 4, and the data come to 6 in 5.

    Where the store waits for them it fires in 5 and is issued in 6, and both loads behind it; 9 and 10 fire in 7, and
    their requests are issued in 8. With a queue the address fires in 3; in 4 it is issued, and the load of the other
    cell, so that 9 fires in 5 and is issued in 6. The data fire in 5 and come in 6, in which the store is done; the load
    of its cell is done in 7; 10 fires in 8 and is issued in 9."""
    for queues, wanted in ((0, [8, 8]), (1, [6, 9]), (16, [6, 9])):
        run = run_of(LATE, machine_of("ideal", {"buffer.queues": queues}))
        if issued(run, "out") != wanted or run.record.cycles != wanted[1] or verified(program, run):
            yield f"a late store with {queues} queues: {issued(run, 'out')} and {run.record.cycles} and not {wanted}"


def links() -> Iterator[str]:
    """Operands of which a link takes two a cycle, and a way of two hops, each of which takes one."""
    shape = Shape(machine_of("", {"width.pod": 2, "width.between": 1, "network.hop": 3}))
    line = Links(shape)
    if (told := [line.claim((POD, 0, 0), cycle, 1) for cycle in (5, 5, 5, 4, 6, 5)]) != [5, 5, 6, 4, 6, 7]:
        yield f"a link takes {told}"
    # the second hop is left three cycles behind the first; another operand has it in cycle 13, so that the next waits
    way = [(BETWEEN, 0, 1), (BETWEEN, 1, 1)]
    if (told := [line.wait(way[1:], 13, 1), line.wait(way, 10, 1), line.wait(way, 10, 1)]) != [0, 1, 2]:
        yield f"a way of two hops waits {told}"


def table_of_waves() -> Iterator[str]:
    """Four clusters, two by two. Wave 5 asks in cluster 1, which is 11 cycles from cluster 2. There its first request
    takes 5 cycles, two ways and 2 for the look, later ones 5. Cluster 0 is 10 cycles from both."""
    machine = machine_of("", {"clusters": 4, "buffer.homes": "table"})
    homes = Homes(Flat([read(SEVEN)], Shape(machine), machine))
    told = [homes.ask(0, 5, 32 * cluster + 3) for cluster in (2, 2, 0, 0)]
    if told != [(2, 29), (2, 5), (2, 37), (2, 15)] or homes.of(0, 5) != 2 or homes.of(0, 6, 3) != 3:
        yield f"the table of waves tells {told}"


def threads_apart(text: str) -> Iterator[str]:
    """Four threads on clusters of their own, without a cache, take the cycles of one, element by element."""
    one = run_of(text, machine_of("one-cluster", {"cache.sets": 0}))
    four = run_of([text] * 4, machine_of("four-clusters", {"cache.sets": 0}))
    if one.record.cycles != four.record.cycles or [four.fired, four.record.fires[32:64]] != [
            4 * one.fired, one.record.fires]:
        yield f"threads apart: {four.record.cycles} cycles and not {one.record.cycles}"


def test_four_instructions(wsc: str, tmp_path: pathlib.Path) -> None:
    assert list(four_instructions(wsc, tmp_path)) == []


def test_late_store(wsc: str) -> None:
    assert list(late_store(wsc)) == []


@pytest.mark.parametrize("act", (small, links, table_of_waves), ids=lambda act: str(act.__name__))
def test_parts(act: Callable[[], Iterator[str]]) -> None:
    assert list(act()) == []


def test_threads_apart(wsc: str) -> None:
    """Over some longer run."""
    assert list(threads_apart(assembly_of(wsc, (EXAMPLES / "sorting.job").read_text()))) == []
