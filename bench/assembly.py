#!/usr/bin/env python3
"""Times reading and printing assembly: texts of the compiled form up to 100 MiB, and hostile ones.

A small program that reads a text, and prints its image if asked, is proved and built in a temporary
folder, over the libraries of the repository. The processor time and the most memory of a process count,
the fastest of three, less the time of one that only takes the text in.
"""

import multiprocessing
import os
import pathlib
import shutil
import subprocess
import sys
import tempfile
from collections.abc import Callable

ROOT = pathlib.Path(__file__).resolve().parent.parent
USES = "ws_words ws_io ws_isa asm_text"
RUNS = 3
MIB = 1 << 20


def compiled(size: int) -> str:
    """Waves of one block with 32 instructions each, as a compiler gives them, about so long."""
    rows = ["wavescalar 2\narray cells 65536\nhidden 4096\n"]
    length, block, instr = 0, 1, 1
    while length < size:
        f = instr
        lines = [f"wave {block}", f"block {block}", f"pad 0 {f}.0", f"pad 3 {f + 2}.1 {f + 3}.0"]
        lines += [f"{f}: advance -> {f + 1}.0 {f + 4}.0", f"{f + 1}: const {block * 7919} -> {f + 2}.0"]
        lines += [f"{f + 2}: add -> {f + 3}.0", f"{f + 3}: load 1 <., 1, 2>.1 -> {f + 5}.0"]
        lines += [f"{f + i}: {('mul', 'xor', 'lt')[i % 3]} -> {f + i + 1}.0 {f + i + 1}.0" for i in range(4, 30)]
        lines += [f"{f + 30}: store 2 <1, 2, .>.2", f"{f + 31}: steer -> {f}.0 {f + 1}.0 | {f + 2}.0"]
        lines += [f"go {block + 1}"]
        row = "\n".join(lines) + "\n"
        rows.append(row)
        length, block, instr = length + len(row), block + 1, instr + 32
    rows.append(f"wave {block}\nblock {block}\nstop\nend\n")
    return "".join(rows)


def one_line(size: int) -> str:
    """An exit with far more landings than there may be, all on one line."""
    return "wavescalar 1\nwave 1\nblock 1\n1: merge ->\nsend 1" + " 1" * (size // 2) + "\nend\n"


def comments(size: int) -> str:
    """Comments in front of an empty image."""
    return "# nothing\n" * (size // 10) + "wavescalar 1\nwave 1\nblock 1\nstop\nend\n"


def names(count: int) -> str:
    """Blocks whose names have 64 bytes and are alike but for their end; each goes to one far off."""
    own = [f"{'a' * 58}{number:06}" for number in range(count)]
    rows = [f"block {name}\ngo {own[(k * 7919 + 13) % count]}\n" for k, name in enumerate(own)]
    return "wavescalar 2\nwave 1\n" + "".join(rows) + "end\n"


def many(size: int) -> str:
    """Instructions with eight destinations each."""
    count = size // 90
    rows = [
        f"{n}: merge -> " + " ".join(f"{(n * 31 + k) % count + 1}.0" for k in range(8)) + "\n"
        for n in range(1, count + 1)
    ]
    return "wavescalar 2\nwave 1\nblock 1\n" + "".join(rows) + "stop\nend\n"


def rt(word: str, folder: pathlib.Path) -> str:
    """Runs rt in a folder, and gives what it says."""
    run = subprocess.run(
        ["rt", word], cwd=folder, stdin=subprocess.DEVNULL, stdout=subprocess.PIPE, stderr=subprocess.STDOUT, check=False
    )
    return run.stdout.decode()


def build(folder: pathlib.Path, name: str = "assembly", used: str = USES) -> pathlib.Path:
    """Proves and builds a program of bench/rattle over these crates in this folder, and gives its path."""
    print(f"{name}: proving and building, which takes some minutes", file=sys.stderr)
    uses = used.split()
    said = "".join(rt("lib", ROOT / "crates" / library) for library in uses[-2:])
    for library in uses:
        for part in ("src", "specs", "proofs", "out/rlib"):
            if (ROOT / "crates" / library / part).is_dir():
                shutil.copytree(ROOT / "crates" / library / part, folder / "crates" / library / part)
    rows = [row for row in (ROOT / "crates.txt").read_text().splitlines() if row.split(":")[0] in uses]
    (folder / "crates.txt").write_text("\n".join([*rows, f"{name}: {used}"]) + "\n")
    crate = folder / "crates" / name
    (crate / "src").mkdir(parents=True)
    shutil.copy(ROOT / "bench" / "rattle" / f"{name}.rattle", crate / "src" / "main.rt")
    said += rt("run", crate)
    program = crate / "out" / name
    if not program.is_file():
        sys.exit(f"{said}{name}: not built")
    return program


def once(command: list[str | pathlib.Path], file: pathlib.Path) -> tuple[float, float, str]:
    """The processor time of a process, the most memory that it had, and what it prints."""
    with open(file, "rb") as text:
        process = subprocess.Popen(command, stdin=text, stdout=subprocess.PIPE)
        assert process.stdout is not None
        out = process.stdout.read().decode().strip()
        _, status, used = os.wait4(process.pid, 0)
    process.returncode = status
    if status:
        sys.exit(f"{command}: status {status}")
    return used.ru_utime + used.ru_stime, used.ru_maxrss / 1024, out


def write(file: pathlib.Path, make: Callable[[int], str], size: int) -> None:
    """Writes a text in a process of its own, whose memory isn't counted as that of the programs."""
    process = multiprocessing.Process(target=lambda: file.write_text(make(size)))
    process.start()
    process.join()


def time(
    program: pathlib.Path, file: pathlib.Path, kind: str, make: Callable[[int], str], count: int, want: str
) -> None:
    """Times reading, and printing where the text is read, and prints both."""
    write(file, make, count)
    size = file.stat().st_size / MIB
    idle = min(once([program], file)[0] for _ in range(RUNS))
    runs = [once([program, "read"], file) for _ in range(RUNS)]
    took, most, said = min(runs)
    if said != want:
        sys.exit(f"{kind}: answered {said}")
    row = f"{kind}, {size:.1f} MiB: read in {took - idle:.2f} s"
    if want == "read":
        both, most, length = min(once([program, "read", "print"], file) for _ in range(RUNS))
        row += f", printed in {max(both - took, 0):.2f} s, {int(length) / MIB:.1f} MiB"
    print(f"{row}; at most {most:.0f} MB, {most / size:.1f} times the text", flush=True)


def main() -> None:
    with tempfile.TemporaryDirectory() as name:
        folder = pathlib.Path(name)
        program = build(folder)
        file = folder / "text.txt"
        for size in (10, 20, 40, 100):
            time(program, file, "compiled form", compiled, size * MIB, "read")
        time(program, file, "eight destinations each", many, 100 * MIB, "read")
        time(program, file, "names alike but for their end", names, 130_000, "read")
        time(program, file, "comments", comments, 100 * MIB, "read")
        time(program, file, "one line", one_line, 50 * MIB, "Limit 5")


if __name__ == "__main__":
    main()
