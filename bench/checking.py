#!/usr/bin/env python3
"""Times the check of images that cost the checker most, and of such of half their size.

A small program that reads an assembly, and checks it if asked, is proved and built in a temporary folder,
over the libraries of the repository. Each image is sound. The table has the processor time of reading, and
what the check adds to it, the fastest of three, and the most memory that the process had without the check
and with it.
"""

import pathlib
import tempfile
from collections.abc import Callable, Iterable, Iterator

from assembly import RUNS, build, once

USES = "ws_words ws_io ws_isa asm_text annot_check"


def dests(places: Iterable[tuple[int, int]]) -> str:
    """A list of destinations, as it is written."""
    return "".join(f" {instr}.{port}" for instr, port in places)


def spread(first: int, targets: list[tuple[int, int]]) -> list[list[tuple[int, int]]]:
    """Instructions from number `first` on that bring a value to many places, eight from each: the
    destinations of each instruction."""
    inner = 1
    while 1 + 7 * inner < len(targets):
        inner += 1
    places = [(first + k, 0) for k in range(1, inner)] + targets
    return [places[8 * k : 8 * k + 8] for k in range(inner)]


def open_slots(count: int) -> Iterator[str]:
    """As many slots open across as many blocks: block 1 opens all, and each further one closes one."""
    leaf = (count + 2 + 5) // 7 + 1
    while True:
        lists = spread(1, [(leaf + k, 0) for k in range(count + 2)])
        if len(lists) + 1 == leaf:
            break
        leaf = len(lists) + 1
    yield "wavescalar 2\nwave 1\nblock 1\npad 0 1.0\n"
    for number, places in enumerate(lists, 1):
        yield f"{number}: {'advance' if number == 1 else 'merge'} ->{dests(places)}\n"
    yield "go 2\n"
    for k in range(count):
        yield f"block {k + 2}\n{leaf + k}: merge ->\ngo {k + 3}\n"
    last = leaf + count
    yield f"block {count + 2}\n{last}: out <., 1, 2>.1\n{last + 1}: halt <1, 2, .>.2\nstop\nend\n"


def landings(count: int) -> Iterator[str]:
    """A block with 16 sends to as many landings."""
    value, address = 2, 6
    sends = [address + 3 + k for k in range(16)]
    yield "wavescalar 2\nwave 1\nblock 1\npad 0 1.0\n"
    out = sends[-1] + 1
    yield f"1: advance ->{dests([(value + k, 0) for k in range(4)] + [(address, 0), (out, 0)])}\n"
    for k in range(4):
        yield f"{value + k}: merge ->{dests([(s, 1) for s in sends[4 * k : 4 * k + 4]])}\n"
    yield f"{address}: const 0 ->{dests([(address + 1, 0), (address + 2, 0)])}\n"
    for k in range(2):
        yield f"{address + 1 + k}: merge ->{dests([(s, 0) for s in sends[8 * k : 8 * k + 8]])}\n"
    for k, send in enumerate(sends):
        yield f"{send}: send {k}\n"
    yield f"{out}: out <., 1, .>.1\nsend {address}" + "".join(f" {k + 2}" for k in range(count)) + "\n"
    number = out + 1
    for k in range(count):
        yield f"wave {k + 2}\nblock {k + 2}\n"
        yield "".join(f"pad {p} {number + p}.0\n" for p in range(16))
        yield f"{number}: advance -> {number + 16}.0\n"
        yield "".join(f"{number + p}: advance ->\n" for p in range(1, 16))
        yield f"{number + 16}: halt <., 1, .>.1\nstop\n"
        number += 17
    yield "end\n"


def waves(count: int) -> Iterator[str]:
    """So many waves of one block, each of which prints once."""
    yield "wavescalar 2\n"
    for k in range(1, count + 1):
        number = 2 * k - 1
        pad = f"pad 0 {number}.0\n" if k == 1 else ""
        more = "" if k == count else f" {number + 2}.0"
        yield f"wave {k}\nblock {k}\n{pad}{number}: advance -> {number + 1}.0{more}\n"
        yield f"{number + 1}: {'halt' if k == count else 'out'} <., 1, .>.1\n"
        yield "stop\nend\n" if k == count else f"go {k + 1}\n"


def wide_waves(count: int, width: int = 32) -> Iterator[str]:
    """So many waves, each of which hands so many values on to the next one."""
    inner = 1
    while len(spread(1, [(inner + 2 + k, 0) for k in range(width)] + [(inner + 1, 0)])) > inner:
        inner += 1
    lists = spread(1, [(inner + 2 + k, 0) for k in range(width)] + [(inner + 1, 0)])
    yield "wavescalar 2\nwave 1\nblock 1\npad 0 1.0\n"
    for number, places in enumerate(lists, 1):
        yield f"{number}: {'advance' if number == 1 else 'merge'} ->{dests(places)}\n"
    yield f"{inner + 1}: out <., 1, .>.1\ngo 2\n"
    first = inner + 2
    for wave in range(2, count + 1):
        last = wave == count
        after = first + width + 1
        yield f"wave {wave}\nblock {wave}\n"
        for k in range(width):
            places = ([] if last else [(after + k, 0)]) + ([(first + width, 0)] if k == 0 else [])
            yield f"{first + k}: advance ->{dests(places)}\n"
        yield f"{first + width}: {'halt' if last else 'out'} <., 1, .>.1\n"
        yield "stop\nend\n" if last else f"go {wave + 1}\n"
        first = after


def long_block(count: int) -> Iterator[str]:
    """One block of so many instructions, most of which pass a value on to the next."""
    yield f"wavescalar 2\nwave 1\nblock 1\npad 0 1.0\n1: advance -> 2.0 {count}.0\n"
    for k in range(2, count - 1):
        yield f"{k}: merge -> {k + 1}.0\n"
    yield f"{count - 1}: out <., 1, 2>.1\n{count}: halt <1, 2, .>.2\nstop\nend\n"


def main() -> None:
    with tempfile.TemporaryDirectory() as name:
        folder = pathlib.Path(name)
        program = build(folder, "checking", USES)
        print("| Image | Text | Read | Checked | Memory | Memory with the check |\n|---|---|---|---|---|---|")
        kinds: tuple[tuple[str, Callable[[int], Iterator[str]], tuple[int, int]], ...] = (
            ("{} slots open across {} blocks", open_slots, (10_000, 20_000)),
            ("16 sends to {} landings", landings, (1_024, 2_048)),
            ("{} waves", waves, (30_000, 60_000)),
            ("{} waves that hand 32 values on", wide_waves, (30_000, 60_000)),
            ("one block of {} instructions", long_block, (2_000_000, 4_000_000)),
        )
        for said, make, sizes in kinds:
            for size in sizes:
                file = folder / "image.txt"
                with file.open("w") as text:
                    text.writelines(make(size))
                read, least, _ = min(once([program, "read"], file) for _ in range(RUNS))
                took, most, answer = min(once([program, "check"], file) for _ in range(RUNS))
                if answer != "sound":
                    raise SystemExit(f"{said}: {answer}")
                print(
                    f"| {said.format(f'{size:,}', f'{size:,}')} | {file.stat().st_size / 1048576:.1f} MiB"
                    f" | {read:.2f} s | {took - read:.2f} s | {least:.0f} MB | {most:.0f} MB |",
                    flush=True,
                )


if __name__ == "__main__":
    main()
