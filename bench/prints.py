#!/usr/bin/env python3
"""Times `wsc run` on prints of long expressions, beside CPython on the same expressions.

Run it at the top of the repository: bench/prints.py. It prints bytes and statements a second for a
text of 512 and of 1,024 statements, so that growth can be seen, and checks the answers.
"""
import pathlib
import random
import subprocess
import time
from collections.abc import Callable
from typing import TypeVar

TOP = pathlib.Path(__file__).resolve().parent.parent
MASK = 2**64 - 1
# Each operator with the form that CPython computes it in, on whole numbers modulo 2^64.
OPERATORS = {
    "+": "({a} + {b} & M)",
    "-": "({a} - {b} & M)",
    "*": "({a} * {b} & M)",
    "&": "({a} & {b})",
    "|": "({a} | {b})",
    "^": "({a} ^ {b})",
    "<": "int({a} < {b})",
    "==": "int({a} == {b})",
}


Done = TypeVar("Done")


def expression(rng: random.Random, operands: int) -> tuple[str, str]:
    """A balanced tree in parentheses: its text in the language, and in Python."""
    if operands == 1:
        n = str(rng.randrange(10**7))
        return n, n
    left = operands // 2
    a, pa = expression(rng, left)
    b, pb = expression(rng, operands - left)
    op = rng.choice(list(OPERATORS))
    return f"({a} {op} {b})", OPERATORS[op].format(a=pa, b=pb)


def job(statements: int) -> tuple[bytes, list[str]]:
    """A job of so many prints, and what they print as Python."""
    rng = random.Random(7)
    # 62 operands, 61 operators and as many pairs of parentheses: with `print` 246 lexemes in a row.
    rows = [expression(rng, 62) for _ in range(statements)]
    text = "proc main() {\n" + "".join(f"  print {a};\n" for a, _ in rows) + "}\n"
    return text.encode(), [p for _, p in rows]


def timed(run: Callable[[], Done]) -> tuple[float, Done]:
    """The seconds of a call, the least of five, and what it gives."""
    best = float("inf")
    for _ in range(5):
        start = time.perf_counter()
        result = run()
        took = time.perf_counter() - start
        best = min(best, took)
    return best, result


def main() -> None:
    subprocess.run([TOP / "wsc", "run"], input=b"proc main() { }", stdout=subprocess.DEVNULL, check=True)
    for statements in (512, 1024):
        text, rows = job(statements)
        took, done = timed(lambda: subprocess.run([TOP / "wsc", "run"], input=text, stdout=subprocess.PIPE, check=True))
        source = ("M = %d\nprint(%s, 'halt', sep='\\n')\n" % (MASK, ",\n".join(rows))).encode()
        slow, other = timed(lambda: subprocess.run(["python3", "-"], input=source, stdout=subprocess.PIPE, check=True))
        assert done.stdout == other.stdout, "the answers differ"
        print(
            f"{statements} statements, {len(text)} bytes: wsc {took:.3f} s"
            f" ({len(text) / took / 1e6:.1f} MB/s, {statements / took:.0f} statements/s),"
            f" CPython {slow:.3f} s, ratio {slow / took:.2f}"
        )


if __name__ == "__main__":
    main()
