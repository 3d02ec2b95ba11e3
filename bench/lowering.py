#!/usr/bin/env python3
"""Times lowering and the passes over control graphs on programs as large as the limits allow, and the
walk of a control graph beside the sequential run.

No command of `wsc` lowers a program, so a small program that does (rattle/lowering.rattle) is proved and built
in a temporary folder, over the libraries of the repository. It reads a program and does one thing to it so many
times.
The processor time of a process counts, the fastest of five, less that of one that does it no times. What
is printed has to be as expected.
"""

import os
import pathlib
import shutil
import subprocess
import sys
import tempfile

# Nothing is left beside the scripts.
sys.dont_write_bytecode = True
import plain

ROOT = pathlib.Path(__file__).resolve().parent.parent
USES = "ws_words ws_io src_ast src_lex src_parse src_check seq_run cfg_core cfg_build live_vars wave_cut call_gen phi_conv"
TOPS = "cfg_build wave_cut call_gen phi_conv"
PASSES = ("reached", "live", "join_short", "live again", "spell_calls", "live at last", "cut")
RUNS = 5

# 3,999,998 turns, of which 1,333,332 are calls.
CALLS = """proc next(i) {
  return i + 1;
}
proc main() {
  var i;
  while (i < 1333332) {
    i = next(i);
  }
  print i;
}
"""

NAMES = ("left", "right", "sum", "v", "w")
OPERATORS = "+ - * / % & | ^ == != < <= > >= << >>".split()


def expression(seed: int, lexemes: int, size: int) -> str:
    """A row of operands, of cells, variables and numbers in turn, within so many lexemes and bytes."""
    text, count = "sum", 1
    for i in range(seed, seed + lexemes):
        name = NAMES[i % 5]
        operand = (f"a[{name}]", name, str(i * 7919 + 10**12), str(i * 104729 + 10**17))[i % 4]
        more = OPERATORS[i * 5 % 16] + operand
        taken = 5 if i % 4 == 0 else 2
        if count + taken > lexemes or len(text) + len(more) > size:
            break
        text, count = text + more, count + taken
    return text


def straight(count: int) -> str:
    """So many assignments in one procedure, each of nearly 256 lexemes and 1,000 bytes."""
    rows = "".join(f"sum={expression(i, 253, 1000)};\n" for i in range(count))
    return "array a[8];proc main(){var left,right,sum,v,w;\n" + rows + "}\n"


def nests(count: int) -> str:
    """So many statements with long tests in one procedure: nests of 31, of `while` and `if` in turn."""
    rows = []
    for i in range(count):
        word = ("while", "if")[i % 2]
        rows.append(f"{word}({expression(i, 251, 1000)}){{\n")
        if i % 31 == 30:
            rows.append("}" * 31 + "\n")
    rows.append("}" * (count % 31))
    return "array a[8];proc main(){var left,right,sum,v,w;\n" + "".join(rows) + "}\n"


def calls(count: int) -> str:
    """So many statements in 64 procedures: calls of the procedures before, with eight long arguments."""
    each = count // 64
    rows = ["array a[8];\n"]
    for p in range(64):
        head = "main(){var left,right,sum,v,w,x,y,z;" if p == 63 else f"p{p}(left,right,sum,v,w,x,y,z){{"
        rows.append("proc " + head + "\n")
        for i in range(each):
            if p == 0:
                rows.append(f"sum={expression(i, 253, 1000)};\n")
            else:
                values = ",".join(expression(i + j, 30, 123) for j in range(8))
                rows.append(f"sum=p{(p * 31 + i * 7) % p}({values});\n")
        rows.append("}\n")
    return "".join(rows)


def rt(word: str, folder: pathlib.Path) -> str:
    """Runs rt in a folder, and gives what it says."""
    run = subprocess.run(
        ["rt", word], cwd=folder, stdin=subprocess.DEVNULL, stdout=subprocess.PIPE, stderr=subprocess.STDOUT, check=False
    )
    return run.stdout.decode()


def build(folder: pathlib.Path) -> pathlib.Path:
    """Proves and builds the program in this folder, and gives its path."""
    print("lowering: proving and building, which takes some minutes", file=sys.stderr)
    # The libraries are proved where they stand, so that a second run finds them proved.
    said = "".join(rt("lib", ROOT / "crates" / library) for library in TOPS.split())
    uses = USES.split()
    for library in uses:
        for part in ("src", "specs", "proofs", "out/rlib"):
            if (ROOT / "crates" / library / part).is_dir():
                shutil.copytree(ROOT / "crates" / library / part, folder / "crates" / library / part)
    rows = [row for row in (ROOT / "crates.txt").read_text().splitlines() if row.split(":")[0] in uses]
    (folder / "crates.txt").write_text("\n".join([*rows, "lowering: " + USES]) + "\n")
    crate = folder / "crates" / "lowering"
    (crate / "src").mkdir(parents=True)
    shutil.copy(ROOT / "bench" / "rattle" / "lowering.rattle", crate / "src" / "main.rt")
    (crate / "proofs").mkdir()
    (crate / "proofs" / "Lib.antt").write_text("pub mod Sends\n")
    shutil.copy(ROOT / "crates" / "wsc_tests" / "proofs" / "Sends.antt", crate / "proofs" / "Sends.antt")
    # rt run also runs the program, without words, which it answers with a failure.
    said += rt("run", crate)
    program = crate / "out" / "lowering"
    if not program.is_file():
        sys.exit(said + "lowering: not built")
    return program


def once(command: list[str | pathlib.Path], file: pathlib.Path) -> tuple[float, int]:
    """The processor time of a process, and what it prints."""
    with open(file, "rb") as text:
        process = subprocess.Popen(command, stdin=text, stdout=subprocess.PIPE)
        assert process.stdout is not None
        out = process.stdout.read().decode()
        _, status, used = os.wait4(process.pid, 0)
    process.returncode = status
    if status:
        sys.exit(f"{command}: status {status}")
    return used.ru_utime + used.ru_stime, int(out)


def each(program: pathlib.Path, file: pathlib.Path, what: str, times: int) -> tuple[float, int]:
    """The seconds of one time, and what it adds to the sum."""
    idle = min(once([program, what, "0"], file)[0] for _ in range(RUNS))
    runs = [once([program, what, str(times)], file) for _ in range(RUNS)]
    total = runs[0][1]
    if total % times or any(out != total for _, out in runs):
        sys.exit(f"{what}: not the same each time")
    return (min(took for took, _ in runs) - idle) / times, total // times


def main() -> None:
    with tempfile.TemporaryDirectory() as name:
        folder = pathlib.Path(name)
        program = build(folder)
        file = folder / "program.txt"
        for kind, make in (("straight", straight), ("nests", nests), ("calls", calls)):
            for count in (256, 512, 1024):
                text = make(count)
                file.write_text(text)
                took, blocks = each(program, file, "lower", 20)
                print(f"lower {kind}, {count} statements, {len(text)} bytes, {blocks} blocks: {took:.5f} s", flush=True)
            for what in PASSES:
                took, out = each(program, file, what, 20)
                print(f"{what} {kind}, {out}: {took:.5f} s", flush=True)
        for kind, text in (("loop", plain.LOOP), ("calls", CALLS), ("sieve", plain.SIEVE)):
            file.write_text(text)
            took, out = each(program, file, "walk", 10)
            theirs, other = each(program, file, "run", 10)
            if out == 0 or out != other:
                sys.exit(f"{kind}: the walk prints something else")
            print(f"{kind}: run_graph {took:.4f} s, run_plain {theirs:.4f} s, {took / theirs:.2f} times as long")


if __name__ == "__main__":
    main()
