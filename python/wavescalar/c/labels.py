"""`goto` to a computed label becomes a switch: the labels of a function are the elements of an array that nothing reads.

So a label's address is a pointer like others: it can be stored, compared and subtracted.
"""

from __future__ import annotations

from wavescalar.c.edit import INTERNAL, Edited, array

STRIDE = 8  # bytes between two labels


def number(edited: Edited) -> None:
    """Replaces the computed `goto`s of a module, and the addresses of the labels to which they lead."""
    llvm = edited.llvm
    jumps: dict[int, list[int]] = {}
    for it in edited.instructions("indirectbr"):
        jumps.setdefault(llvm.GetBasicBlockParent(llvm.GetInstructionParent(it)), []).append(it)
    for function, own in jumps.items():
        labels = list(dict.fromkeys(target for it in own for target in _targets(edited, it)))
        kind = llvm.ArrayType(edited.long, len(labels))
        them = llvm.AddGlobal(edited.module, kind, f"labels_{llvm.name(function)}".encode())
        llvm.SetLinkage(them, INTERNAL)
        llvm.SetInitializer(them, llvm.ConstNull(kind))
        for it in own:
            _jump(edited, it, them, labels)
        for place, label in enumerate(labels):
            element = array([edited.number(0), edited.number(place)])
            found = llvm.BlockAddress(function, label)
            llvm.ReplaceAllUsesWith(found, llvm.ConstBitCast(
                llvm.ConstInBoundsGEP2(kind, them, element, 2), llvm.TypeOf(found)))


def _targets(edited: Edited, it: int) -> list[int]:
    return [edited.llvm.GetSuccessor(it, k) for k in range(edited.llvm.GetNumSuccessors(it))]


def _jump(edited: Edited, it: int, them: int, labels: list[int]) -> None:
    """A switch in place of a computed `goto`; it has no other target than its labels."""
    llvm, build = edited.llvm, edited.builder
    function = llvm.GetBasicBlockParent(llvm.GetInstructionParent(it))
    nowhere = llvm.AppendBasicBlockInContext(edited.context, function, b"nowhere")
    llvm.PositionBuilderAtEnd(build, nowhere)
    llvm.BuildUnreachable(build)
    edited.before(it)
    distance = llvm.BuildSub(build, llvm.BuildPtrToInt(build, llvm.GetOperand(it, 0), edited.long, b""),
                             llvm.ConstPtrToInt(them, edited.long), b"label")
    own = list(dict.fromkeys(_targets(edited, it)))
    switch = llvm.BuildSwitch(build, distance, nowhere, len(own))
    for target in own:
        llvm.AddCase(switch, edited.number(STRIDE * labels.index(target)), target)
    llvm.InstructionEraseFromParent(it)
