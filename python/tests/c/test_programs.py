"""Programs print on the machine what they print natively, at each level, however they are run."""

from __future__ import annotations

import shutil
from collections import Counter
from collections.abc import Callable, Iterable, Sequence
from pathlib import Path
from typing import Any

import pytest

from tests.c.compare import Case, compared, input_of, native
from tests.c.csmith import tried
from tests.c.generate import Program
from wavescalar.programs import ROOT

PROGRAMS = sorted((Path(__file__).resolve().parent / "programs").glob("*.c"))
KERNELS = sorted((ROOT / "examples" / "c").glob("*.c"))
SMALL: dict[str, tuple[list[str], str]] = {
    "signs": (["255", "18446744073709551615"], """#include <stdint.h>
int main(void) {
  int8_t a = (int8_t)ws_read(); int32_t b = (int32_t)ws_read(); int16_t c = (int16_t)(a * 300);
  ws_print((unsigned long)(long)(a / 2 + b % 7)), ws_print((unsigned long)(c >> 3)), ws_print(a < b), ws_print(a == b);
  ws_print((uint8_t)c), ws_print((unsigned long)(int64_t)(a - 200)), ws_print((uint32_t)b >> 4);
}"""),
    "pointers": (["3", "9"], """
static int a[4] = {1, 2, 3, 4}, b[6] = {5, 6, 7, 8, 9, 10};
int main(void) {
  int *p = ws_read() & 1 ? a : b, *end = p + 4, s = 0;
  for (; p != end; p++) s = 10 * s + *p;
  ws_print((unsigned long)s), ws_print((unsigned long)(end - p)), ws_print(p == 0);
  p = &b[ws_read() % 6], *p = 77, ws_print((unsigned long)b[3]);
}"""),
    "unions": (["81985529216486895"], """#include <stdint.h>
int main(void) {
  union { uint64_t word; uint8_t bytes[8]; } u;
  u.word = ws_read(), u.bytes[ws_read() & 7] = 9;
  for (int k = 7; k >= 0; k--) ws_print(u.bytes[k]);
  ws_print(u.word);
}"""),
    "moves": (["2", "5"], """#include <string.h>
static unsigned short a[40];
int main(void) {
  for (int i = 0; i < 40; i++) a[i] = (unsigned short)(i * i);
  unsigned long from = ws_read(), to = ws_read();
  memmove(a + to, a + from, 30 * sizeof *a), memset(a, 0x5A, from * sizeof *a), memcpy(a + 20, a, 10 * sizeof *a);
  for (int i = 0; i < 40; i++) ws_print(a[i]);
}"""),
    "no loops": ([], "int main(void) { ws_print(7); return 0; }"),
    "nothing": ([], "int main(void) { return 0; }"),
    "early exits": (["5", "3", "0", "9"], """#include <stdlib.h>
int main(void) {
  for (unsigned long n = ws_read();; n--) {
    unsigned long x = ws_read();
    if (x > 100) continue;
    if (n == 2) break;
    if (x == 9) { ws_print(99); exit(0); }
    ws_print(x * n);
  }
  ws_print(1);
}"""),
    "many arrays": (["4"], "".join(f"static long a{k}[3] = {{{k}, 1}};" for k in range(300)) + """
int main(void) { unsigned long i = ws_read() % 3, s = 0;
""" + "".join(f"a{k}[i] += {k}; s = s * 3 + (unsigned long)a{k}[1];" for k in range(300)) + "ws_print(s); }"),
}


def check(file: Path, given: Sequence[int], level: int) -> None:
    """Fails where a way to run a file of C prints other words than the native program."""
    line = compared(Case(file, tuple(given), (level,)), native(file, given), level, Counter())
    assert "ways agree" in line, line


def name_of(file: Path) -> str:
    """What a test of a file is called."""
    return file.stem


def some(cases: Iterable[Any], which: range) -> list[Any]:
    """All cases; those whose places aren't these are left for `--all-c`."""
    return [case if place in which else pytest.param(case, marks=pytest.mark.long) for place, case in enumerate(cases)]


@pytest.mark.parametrize("level", some((0, 1, 2), range(1, 2)))
@pytest.mark.parametrize("name", SMALL)
def test_small(name: str, level: int, source: Callable[..., Path]) -> None:
    words, text = SMALL[name]
    check(source(text), [int(word) for word in words], level)


@pytest.mark.parametrize("file", some(KERNELS, range(0, len(KERNELS), 4)), ids=name_of)
def test_kernels(file: Path) -> None:
    check(file, input_of(file), 1)


@pytest.mark.parametrize("file", some(PROGRAMS, range(0, len(PROGRAMS), 3)), ids=name_of)
def test_programs(file: Path) -> None:
    check(file, input_of(file), PROGRAMS.index(file) % 3)


@pytest.mark.parametrize("seed", some(range(1, 9), range(2)))
@pytest.mark.skipif(not shutil.which("csmith"), reason="csmith isn't there (Debian: csmith)")
def test_csmith(seed: int) -> None:
    answer = tried(seed, None, False, None)
    assert answer.what in ("same", "endless", "large"), answer.line


@pytest.mark.parametrize("seed", some(range(900, 906), range(2)))
def test_random(seed: int, tmp_path: Path) -> None:
    file = tmp_path / "random.c"
    file.write_text(str(Program(seed)))
    check(file, [seed, 1 << 63, 5], seed % 3)
