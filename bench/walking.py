#!/usr/bin/env python3
"""Times the walk of an image: a loop of seven instructions a turn, where nothing else is done.

A small program that reads an assembly, checks it and walks so many instances of it is proved and built in
a temporary folder, over the libraries of the repository. The processor time of a process counts, the
fastest of three, less that of a walk of no instance.
"""

import pathlib
import tempfile

from assembly import RUNS, build, once

USES = "ws_words ws_io ws_isa asm_text annot_check"

LOOP = """wavescalar 1
wave 1
block 1
pad 0 1.0
1: advance -> 2.0 3.0
2: nop <., 1, .>.0
3: const 0 -> 4.0
go 2
wave 2
block 2
4: advance -> 5.0 6.0 7.0 9.0
5: const 1 -> 7.1
6: const 1000000000000 -> 8.1
7: add -> 8.0 10.0
8: lt -> 10.1
9: nop <., 1, .>.0
10: steer -> 4.0 | 11.0
if 8 2 3
wave 3
block 3
11: advance -> 12.0 13.0
12: out <., 1, 2>.1
13: halt <1, 2, .>.2
stop
end
"""


def main() -> None:
    with tempfile.TemporaryDirectory() as name:
        folder = pathlib.Path(name)
        program = build(folder, "walking", USES)
        file = folder / "loop.txt"
        file.write_text(LOOP)
        firings = 1_000_000_000
        idle = min(once([program, "0"], file)[0] for _ in range(RUNS))
        took, _, said = min(once([program, str(firings)], file) for _ in range(RUNS))
        if said != str(firings):
            raise SystemExit(f"walked {said}")
        print(f"{firings:,} instances in {took - idle:.2f} s, {firings / (took - idle) / 1e6:.0f} million a second")


if __name__ == "__main__":
    main()
