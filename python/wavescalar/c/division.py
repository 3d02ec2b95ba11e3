"""Division of integers of more than 64 bits, as `__int128`: calls of functions of the library (library.c)."""

from __future__ import annotations

import re

from wavescalar.c.edit import Edited, array

WIDE = re.compile(rb"= [us](?:div|rem) (?:exact )?i(?:6[5-9]|[7-9]\d|\d{3,}) ")
MOST = 128  # bits


def call(edited: Edited) -> None:
    """Replaces them in a module. Raises Refusal for integers of more than 128 bits."""
    llvm = edited.llvm
    wide = llvm.IntTypeInContext(edited.context, MOST)
    for it in edited.instructions("udiv", "sdiv", "urem", "srem"):
        own = llvm.TypeOf(it)
        if llvm.GetIntTypeWidth(own) <= 64:
            continue
        if llvm.GetIntTypeWidth(own) > MOST:
            raise edited.refused(it, f"division of an integer of {llvm.GetIntTypeWidth(own)} bits")
        edited.before(it)
        op = edited.op(it)
        extend = llvm.BuildSExt if op[0] == "s" else llvm.BuildZExt
        given: list[int] = []
        for k in range(2):
            given += _halves(edited, extend(edited.builder, llvm.GetOperand(it, k), wide, b""))
        pair = llvm.StructTypeInContext(edited.context, array([edited.long] * 2), 2, 0)
        kind = edited.function_type(pair, [edited.long] * 4)
        both = edited.call(edited.function(f"wscc_{op}", kind), kind, given)
        low, high = (llvm.BuildZExt(edited.builder, llvm.BuildExtractValue(edited.builder, both, k, b""), wide, b"")
                     for k in range(2))
        high = llvm.BuildShl(edited.builder, high, llvm.ConstInt(wide, 64, 0), b"")
        found = llvm.BuildOr(edited.builder, low, high, b"")
        edited.put(it, llvm.BuildTrunc(edited.builder, found, own, b"") if own != wide else found)


def _halves(edited: Edited, value: int) -> list[int]:
    """The lower and the upper 64 bits."""
    llvm, wide = edited.llvm, edited.llvm.TypeOf(value)
    high = llvm.BuildLShr(edited.builder, value, llvm.ConstInt(wide, 64, 0), b"")
    return [int(llvm.BuildTrunc(edited.builder, part, edited.long, b"")) for part in (value, high)]
