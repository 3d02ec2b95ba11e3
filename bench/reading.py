#!/usr/bin/env python3
"""Times reading: texts of lexemes up to a mebibyte, and printing a large program in its layout."""

import pathlib
import subprocess
import time

ROOT = pathlib.Path(__file__).resolve().parent.parent
WSC = ROOT / "crates" / "wsc" / "out" / "wsc"
RUNS = 5


def fastest(words: list[str], text: str) -> tuple[float, str]:
    """The seconds of a call, the least of several, and what it prints."""
    best = float("inf")
    for _ in range(RUNS):
        begin = time.perf_counter()
        run = subprocess.run([WSC, *words], input=text.encode(), stdout=subprocess.PIPE, check=False)
        took = time.perf_counter() - begin
        best = min(best, took)
    return best, run.stdout.decode()


def main() -> None:
    for size in (1 << 18, 1 << 19, 1 << 20):
        # `a=1;` is read whole before the first lexeme, which begins no program, is refused.
        took, out = fastest(["format"], "a=1;" * (size // 4))
        assert out == "refused 1:1 syntax\n"
        print(f"{size} bytes of lexemes: {took:.3f} s")
    for count in (512, 1024):
        body = "".join(f"print ({i}+1)*(2-{'(' * 40}x{')' * 40});" for i in range(count))
        took, out = fastest(["format"], "proc main(){var x;" + body + "}")
        assert out.count("\n") == count + 3
        print(f"format of {count} statements: {took:.3f} s")


if __name__ == "__main__":
    main()
