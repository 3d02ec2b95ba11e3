#!/usr/bin/env python3
"""Times the sequential run beside other interpreters, on the same programs.

Each program is run some times in turn with its counterparts, and the fastest run of each counts. What is
printed has to be the same.
"""

import pathlib
import shutil
import subprocess
import sys
import tempfile
import time
from collections.abc import Sequence

ROOT = pathlib.Path(__file__).resolve().parent.parent
WSC = ROOT / "crates" / "wsc" / "out" / "wsc"
RUNS = 5

# 3,999,998 turns.
LOOP = """proc main() {
  var i, s;
  while (i < 1333332) {
    s = s + i;
    i = i + 1;
  }
  print s;
}
"""
LOOP_PYTHON = """
def main():
    i = s = 0
    while i < 1333332:
        s = (s + i) & 0xFFFFFFFFFFFFFFFF
        i = (i + 1) & 0xFFFFFFFFFFFFFFFF
    print(s)
main()
"""
LOOP_PERL = """
my ($i, $s) = (0, 0);
while ($i < 1333332) { $s = $s + $i; $i = $i + 1; }
print "$s\\n";
"""

# Sieves 60,000 numbers: 653,110 turns with cells.
SIEVE = """array a[60000];
proc main() {
  var i, j, n;
  i = 2;
  while (i < 60000) {
    if (a[i] == 0) {
      n = n + 1;
      j = i * i;
      while (j < 60000) {
        a[j] = 1;
        j = j + i;
      }
    }
    i = i + 1;
  }
  print n;
}
"""
SIEVE_PYTHON = """
def main():
    a = [0] * 60000
    n = 0
    i = 2
    while i < 60000:
        if a[i] == 0:
            n = (n + 1) & 0xFFFFFFFFFFFFFFFF
            j = (i * i) & 0xFFFFFFFFFFFFFFFF
            while j < 60000:
                a[j] = 1
                j = (j + i) & 0xFFFFFFFFFFFFFFFF
        i = (i + 1) & 0xFFFFFFFFFFFFFFFF
    print(n)
main()
"""
SIEVE_PERL = """
my @a = (0) x 60000;
my ($i, $j, $n) = (2, 0, 0);
while ($i < 60000) {
    if ($a[$i] == 0) {
        $n = $n + 1; $j = $i * $i;
        while ($j < 60000) { $a[$j] = 1; $j = $j + $i; }
    }
    $i = $i + 1;
}
print "$n\\n";
"""


def fastest(command: Sequence[str | pathlib.Path], text: str) -> tuple[float, str]:
    """The seconds of a process, the least of several, and what it prints."""
    best, out = float("inf"), ""
    for _ in range(RUNS):
        begin = time.perf_counter()
        run = subprocess.run(command, input=text.encode(), stdout=subprocess.PIPE, check=True)
        took = time.perf_counter() - begin
        best = min(best, took)
        out = run.stdout.decode()
    return best, out


def main() -> None:
    others = [("python3", 0), ("perl", 1)]
    for name, job, texts in (
        ("loop", LOOP, (LOOP_PYTHON, LOOP_PERL)),
        ("sieve", SIEVE, (SIEVE_PYTHON, SIEVE_PERL)),
    ):
        took, out = fastest([WSC, "plain", "--turns=4000000"], job)
        print(f"{name}: wsc plain {took:.3f} s")
        for command, place in others:
            if shutil.which(command) is None:
                continue
            with tempfile.NamedTemporaryFile("w", suffix=".txt") as file:
                file.write(texts[place])
                file.flush()
                theirs, other = fastest([command, file.name], "")
            if out != other + "halt\n":
                sys.exit(f"{name}: {command} prints something else")
            print(f"{name}: {command} {theirs:.3f} s, {theirs / took:.1f} times as long")


if __name__ == "__main__":
    main()
