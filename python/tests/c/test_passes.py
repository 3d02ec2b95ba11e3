"""Each pass over flow graphs leaves what random programs print as it was; and it does what it is for."""

from __future__ import annotations

from pathlib import Path

import pytest
from tests.c.generate import Program
from wavescalar.c import lowered, optimized
from wavescalar.c.clang import Clang
from wavescalar.c.cleanup import tidy
from wavescalar.c.cut import cut
from wavescalar.c.flow import Graph
from wavescalar.c.follow import Followed, follow
from wavescalar.c.hoist import hoist
from wavescalar.c.joins import part
from wavescalar.c.keep import keep
from wavescalar.c.order import natural_loops, reverse_postorder
from wavescalar.c.share import share
from wavescalar.c.unroll import unroll

GIVEN = [3, 1 << 63, 2**64 - 1]


def graph_of(text: str, tmp_path: Path, level: int) -> Graph:
    """The flow graph of a program, as it is lowered."""
    file = written(text, tmp_path)
    return lowered(Clang.found().ir(file, level, ["-w"]), str(file))


def written(text: str, tmp_path: Path) -> Path:
    """A file of a text."""
    file = tmp_path / "test.c"
    file.write_text(text)
    return file


def prints(graph: Graph, given: list[int]) -> tuple[int, ...]:
    """The words of a graph, which comes to its end."""
    done = follow(graph, given)
    assert done.ended and done.past is None
    return done.words


def shared(graph: Graph) -> None:
    """Cuts a graph into waves, and computes once what they compute alike."""
    share(graph, cut(graph))


@pytest.mark.parametrize("seed", [pytest.param(seed, marks=[pytest.mark.long] * (seed > 2)) for seed in range(8)])
def test_passes_keep_the_meaning(seed: int, tmp_path: Path) -> None:
    graph = graph_of(str(Program(seed)), tmp_path, seed % 3)
    wanted = prints(graph, GIVEN)
    for work in (tidy, part, tidy, hoist, unroll, tidy, keep, tidy, shared):
        work(graph)
        assert prints(graph, GIVEN) == wanted, work.__name__


NEST = """#include "wavescalar.h"
static unsigned long a[8][8];
int main(void) {
  unsigned long n = ws_read() & 7, x = ws_read(), y = ws_read(), s = 0;
  for (unsigned long i = 0; i < n; i++)
    for (unsigned long j = 0; j < n; j++) a[i][j] += j;
  for (unsigned long i = 0; i < n; i++) s += a[i][i];
  ws_print(s + x * y);
  return 0;
}
"""


def test_keep_takes_values_out_of_loops(tmp_path: Path) -> None:
    graph = graph_of(NEST, tmp_path, 1)
    tidy(graph)
    before = sum(len(live) for block, live in cut(graph).enters.items() if block.phis)
    arrays = len(graph.arrays)
    wanted = prints(graph, [5, 6, 7])
    keep(graph)
    after = sum(len(live) for block, live in cut(graph).enters.items() if block.phis)
    assert after < before
    made = graph.arrays[arrays:]
    assert made and all(not array.name and array.cells == 1 for array in made)
    assert prints(graph, [5, 6, 7]) == wanted == (5 * 4 // 2 + 42,)


def test_hoist_takes_products_out_of_loops(tmp_path: Path) -> None:
    graph = graph_of(NEST, tmp_path, 0)
    tidy(graph)

    def multiplied() -> int:
        order = reverse_postorder(graph.blocks[0], lambda block: block.targets)
        loops = natural_loops(order, lambda block: block.targets).values()
        return sum(op.kind == "mul" for loop in loops for block in loop for op in block.ops)

    before = multiplied()
    hoist(graph)
    assert multiplied() < before


def test_blocks_of_a_wave_are_entered_at_its_head(tmp_path: Path) -> None:
    graph = graph_of(str(Program(3)), tmp_path, 2)
    tidy(graph)
    found = cut(graph)
    for block in graph.blocks:
        for target in block.targets:
            assert target is found.wave[target].head or found.wave[target] is found.wave[block]
        heads = [target is found.wave[target].head for target in block.targets]
        assert len(set(heads)) < 2  # a branch leads to two heads, or to none


CONTINUES = """#include "wavescalar.h"
static unsigned char a[16];
int main(void) {
  unsigned long n = ws_read(), count = 0;
  for (unsigned long i = 2; i < n; i++) {
    if (a[i]) continue;
    count++;
    for (unsigned long k = 2 * i; k < n; k += i) a[k] = 1;
  }
  ws_print(count);
}
"""


def test_joins_spare_waves(tmp_path: Path) -> None:
    graph = graph_of(CONTINUES, tmp_path, 1)
    tidy(graph)
    before, wanted = len(cut(graph).waves), prints(graph, [15])
    part(graph)
    tidy(graph)
    assert len(cut(graph).waves) < before
    assert prints(graph, [15]) == wanted == (6,)


SEARCH = """#include "wavescalar.h"
int main(void) {
  unsigned long n = ws_read(), x = 1, y = 0, k = 0;
  while (k < n) {
    x = x * ws_read() + k;
    if (x > 1000) break;
    k++, y += x & 3;
  }
  ws_print(x), ws_print(y), ws_print(k);
}
"""


@pytest.mark.parametrize("given", [[0], [1, 2], [5, 1, 2, 3, 4, 5], [9, 7, 7, 7, 7, 7], [3, 2000]])
def test_copies_of_a_turn(given: list[int], tmp_path: Path) -> None:
    graph = graph_of(SEARCH, tmp_path, 1)
    tidy(graph)
    before, wanted = len(graph.blocks), prints(graph, given)
    unroll(graph)
    tidy(graph)
    assert len(graph.blocks) > before + 3
    assert prints(graph, given) == wanted


TWO_ENTRIES = """#include "wavescalar.h"
int main(void) {
  for (unsigned long m = ws_read(); m-- > 0;) {
    unsigned long n = m, a = 0, b = 1;
    if (n & 1) goto inside;
    while (n) {
      a += b;
    inside:
      b = a ^ n;
      n = n > 3 ? n - 3 : 0;
    }
    ws_print(a * 31 + b);
  }
}
"""


def test_cycles_with_two_entries_stay(tmp_path: Path) -> None:
    graph = graph_of(TWO_ENTRIES, tmp_path, 1)
    tidy(graph)
    wanted = prints(graph, [9])
    unroll(graph)
    tidy(graph)
    assert prints(graph, [9]) == wanted and len(wanted) == 9


def test_equal_operations_are_shared(tmp_path: Path) -> None:
    graph = graph_of("""#include "wavescalar.h"
static long a[8][5];
int main(void) {
  unsigned long x = ws_read() & 7;
  a[x][1] = 5;
  if (ws_read()) ws_print(9);
  ws_print((unsigned long)a[x][ws_read() % 5]);
}
""", tmp_path, 0)
    tidy(graph)

    def multiplied() -> int:
        return sum(op.kind == "mul" for op in graph.ops())

    before = multiplied()
    shared(graph)
    assert multiplied() < before
    assert prints(graph, [3, 1, 1]) == (9, 5)


def test_the_place_of_an_index_that_is_past_the_end(tmp_path: Path) -> None:
    text = """#include "wavescalar.h"
static int a[8];
int main(void) {
  for (unsigned long k = 0; k < 3; k++)
    a[ws_read()] = 1;
  ws_print((unsigned long)a[7]);
}
"""
    graph = optimized(Clang.found().ir(written(text, tmp_path), 1, ["-w"]), "test.c")
    assert follow(graph, [7, 0, 3]) == Followed((1,), None, True)
    past = follow(graph, [7, 8]).past
    assert past is not None and past.kind == "store" and past.place is not None
    assert (Path(past.place.file).name, past.place.line) == ("test.c", 5)
    assert graph.arrays[past.array or 0].name == "a"
    assert not follow(graph, [7, 0, 3], 0).ended
