"""From C to WaveScalar: clang makes IR of a program, and what is here makes a draft of that, which `wsl` links.

    image = link(compile_c(Path("sort.c")))
    print(*run(image, [3, 1, 2]).words)

clang and opt: clang.py. Changes of IR before it is optimized: edit.py, whole.py, start.py, variadic.py, labels.py,
division.py, floats.py, printing.py. IR as data: llvm_c.py, reader.py, ir.py, recursion.py, wide.py. Memory: objects.py, cells.py,
copies.py. Words: widths.py, signs.py, arith.py. The flow graph: flow.py; checks.py, words.py, memory.py and lower.py
make it; cleanup.py, joins.py, hoist.py, unroll.py and keep.py make it better; follow.py follows it. Waves: order.py,
live.py, rename.py, cut.py, share.py, steps.py, waves.py. `wscc`:
command.py.
"""

from __future__ import annotations

import sys
from collections.abc import Iterator, Sequence
from contextlib import contextmanager
from pathlib import Path

from wavescalar.image import Image
from wavescalar.c.clang import Clang, Sources
from wavescalar.c.faults import Place, Refusal, ToolFault
from wavescalar.c.flow import Graph

DEPTH = 20_000  # calls of Python inside of one another

__all__ = ["Place", "Refusal", "ToolFault", "compile_c", "compile_ir"]


def compile_c(sources: Sources, level: int = 1, words: Sequence[str] = (), result: bool = False,
              as_text: bool = False) -> Image:
    """The draft of a file of C, or of several, optimized at this level, 0 to 2.

    words: more for clang, as `-I` and `-D`. result: whether main's result is printed as the last word. as_text: whether
    the words that are printed are the codes of characters.
    Raises Refusal for what the front end doesn't take, ToolFault where clang, opt or LLVM's library fails.
    """
    tools = Clang.found()
    first = sources if isinstance(sources, Path) else sources[0]
    return compile_ir(tools.ir(sources, level, words, as_text), str(first), tools.version(), result)


def compile_ir(text: bytes, file: str, version: int = 14, result: bool = False) -> Image:
    """The draft of IR, as text or bitcode, with all inlined into `main` that can be. version: LLVM's major one."""
    return draft_of(optimized(text, file, version, result))


def optimized(text: bytes, file: str, version: int = 14, result: bool = False) -> Graph:
    """The flow graph of such IR, as it is drafted."""
    from wavescalar.c.cleanup import tidy
    from wavescalar.c.hoist import hoist
    from wavescalar.c.joins import part
    from wavescalar.c.keep import keep
    from wavescalar.c.unroll import unroll

    with _deep_stack():
        graph = lowered(text, file, version, result)
        tidy(graph)
        part(graph)
        tidy(graph)
        hoist(graph)
        unroll(graph)
        tidy(graph)
        keep(graph)
        tidy(graph)
        return graph


def draft_of(graph: Graph, lines: bool = False) -> Image:
    """The draft of a flow graph. lines: whether names of instructions tell their lines of C."""
    from wavescalar.c.waves import draft

    with _deep_stack():
        return draft(graph, lines)


@contextmanager
def _deep_stack() -> Iterator[None]:
    """Lets calls nest as deep as values have to be followed back through branches."""
    before = sys.getrecursionlimit()
    sys.setrecursionlimit(max(before, DEPTH))
    try:
        yield
    finally:
        sys.setrecursionlimit(before)


def lowered(text: bytes, file: str, version: int = 14, result: bool = False) -> Graph:
    """The flow graph of IR, as it is before passes make it better."""
    from wavescalar.c.lower import lower
    from wavescalar.c.reader import read
    from wavescalar.c.recursion import unfold
    from wavescalar.c.wide import narrow

    module = read(text, file, version)
    unfold(module)
    narrow(module)
    return lower(module, result)
