"""Floating point by integers (library/float.c) against the processor's, bit by bit: natively, and in an image."""

from __future__ import annotations

import subprocess
from collections.abc import Callable
from pathlib import Path

import pytest

from tests.c.compare import native
from wavescalar import link, run
from wavescalar.c import compile_c
from wavescalar.c.clang import EXACT, LIBRARY, Clang

RUNTIME = Path(__file__).resolve().parent / "runtime"


@pytest.mark.parametrize("seed", (1, 2))
def test_the_library_is_exact(seed: int, tmp_path: Path) -> None:
    program = tmp_path / "floats"
    subprocess.run([Clang.found().clang, "-w", "-O1", EXACT, "-fno-builtin", f"-I{LIBRARY}", RUNTIME / "floats.c", "-lm",
                    "-o", program], check=True)
    done = subprocess.run([program, "20000", str(seed)], capture_output=True, text=True, check=False)
    assert done.stdout.endswith(" compared, 0 different\n") and int(done.stdout.split()[0]) > 2_000_000


CALLED = """static double pick(double x, int n) { return n ? pick(x / 3 + n, n - 1) * x : x; }
int main(void) {
  float values[8]; double sum = 0;
  for (int k = 0; k < 8; k++) values[k] = (float)ws_read() / 7;
  for (int k = 0; k < 8; k++) { """ + "".join(f"sum += values[(k + {k}) % 8] * {k}.25;" for k in range(40)) + """ }
  ws_print((unsigned long)sum), ws_print((unsigned long)pick(sum, 5));
}"""


def test_what_is_called_often_is_not_inlined(source: Callable[..., Path]) -> None:
    file, given = source(CALLED), [3, 1, 4, 1, 5, 9, 2, 6]
    image = link(compile_c(file, 1, ["-w"]))
    assert list(run(image, given).words) == native(file, given)
    assert any((array.name or "").startswith("returns_wscc_f64_add") for array in image.arrays)
