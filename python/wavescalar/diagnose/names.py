"""Restore a draft's names and version in the image that `wsl` made of it.

    wsl < loop.asm | wsc-names loop.asm > named.asm

Each instruction gets the name that the draft's instruction has at the same place of the same block. An added `nop` is
called `nop_B`, in block B. A draft of version 1 has no names. Comments are dropped; the sections after the image are
kept.
"""

from __future__ import annotations

import functools
import re
import sys
from collections.abc import Iterator

from wavescalar.cli import Line, given, whole
from wavescalar.faults import Fault
from wavescalar.numbered import sections
from wavescalar.reader import MARKS, Text

DEST = re.compile(r"(\d+)\.(\d+)")


def labels(draft: Text, image: Text) -> tuple[dict[int, str], dict[int, str]]:
    """Names of the image's instructions and blocks, by their numbers."""
    taken = {it.name for it in draft.instrs}
    instrs: dict[int, str] = {}
    blocks = {b.number: b.name or str(b.number) for b in draft.blocks}
    for old, new in zip(draft.blocks, image.blocks):
        for place, it in enumerate(new.instrs):
            if place < len(old.instrs):
                instrs[it.number] = old.instrs[place].name or str(it.number)
            else:
                name = f"nop_{blocks[new.number]}"
                while name in taken:
                    name += "_"
                instrs[it.number] = name if old.name else str(it.number)
                taken.add(name)
    return instrs, blocks


def named(text: str, draft: str) -> Iterator[str]:
    """The lines of an image with the names of its draft."""
    lines = sections(text)[0][0]
    own, image = Text(sections(draft)[0][0]), Text(lines)
    if not own.whole or not image.whole or len(own.blocks) != len(image.blocks):
        raise Fault("this isn't an image of that draft")
    if own.version == 1:
        yield text
        return
    instrs, blocks = labels(own, image)

    def dests(part: str) -> str:
        return DEST.sub(lambda m: f"{instrs[int(m[1])]}.{m[2]}", part)

    for line in lines:
        words = line.split()
        if words[:1] == ["wavescalar"]:
            yield "wavescalar 2"
        elif words[:1] == ["block"]:
            yield f"block {blocks[int(words[1])]}"
        elif words[:1] == ["pad"]:
            yield " ".join(words[:2]) + "".join(f" {dests(word)}" for word in words[2:])
        elif words and words[0].endswith(":"):
            head, arrow, lists = line.partition("->")
            yield instrs[int(words[0][:-1])] + ":" + head.partition(":")[2] + arrow + dests(lists)
        elif words[:1] == ["go"]:
            yield f"go {blocks[int(words[1])]}"
        elif words[:1] in (["if"], ["send"]):
            yield " ".join([words[0], instrs[int(words[1])], *(blocks[int(word)] for word in words[2:])])
        else:
            yield line
    behind: list[tuple[list[str], int]] = [part for part in sections(text)[1:] if part]
    for (more, _), mark in zip(behind, MARKS):
        yield from (mark, *more)


def main() -> int:
    ask = Line(__doc__)
    ask.add_argument("draft", metavar="DRAFT")
    ask.add_argument("file", nargs="?", metavar="IMAGE")
    line = ask.parse_args()
    print("\n".join(named(given(line.file), given(line.draft))), end="")
    return 0


tool = functools.partial(whole, main)

if __name__ == "__main__":
    sys.exit(tool())
