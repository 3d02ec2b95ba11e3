"""A module of LLVM's IR that is changed before it is optimized, by LLVM's C library."""

from __future__ import annotations

import ctypes
from collections.abc import Iterator, Sequence

from wavescalar.c import llvm_c as c
from wavescalar.c.faults import Place, Refusal

INTERNAL = 8  # llvm-c/Core.h: LLVMInternalLinkage


def array(handles: Sequence[int]) -> ctypes.Array[ctypes.c_void_p]:
    """Handles as the library takes them."""
    return (ctypes.c_void_p * len(handles))(*handles)


class Edited:
    """The module of a text or bitcode; what several changes need."""

    def __init__(self, llvm: c.Llvm, text: bytes) -> None:
        self.llvm = llvm
        self.context = llvm.ContextCreate()
        self.module = llvm.parse(text, self.context)
        self.builder = llvm.CreateBuilderInContext(self.context)
        self.byte, self.int, self.long = (llvm.IntTypeInContext(self.context, width) for width in (8, 32, 64))
        self.pointer = llvm.PointerType(self.byte, 0)

    def link(self, text: bytes) -> None:
        """Takes in another module."""
        self.llvm.LinkModules2(self.module, self.llvm.parse(text, self.context))

    def text(self) -> bytes:
        """The module."""
        return self.llvm.text(self.llvm.PrintModuleToString(self.module)).encode(errors="surrogateescape")

    def functions(self) -> list[int]:
        """All functions, with those that have no body."""
        return list(self.llvm.chain(self.module, "GetFirstFunction", "GetNextFunction"))

    def instructions(self, *ops: str) -> list[int]:
        """All instructions of these words."""
        llvm, found = self.llvm, []
        for function in self.functions():
            for block in llvm.chain(function, "GetFirstBasicBlock", "GetNextBasicBlock"):
                found += [it for it in llvm.chain(block, "GetFirstInstruction", "GetNextInstruction")
                          if self.op(it) in ops]
        return found

    def users(self, value: int) -> Iterator[int]:
        """What uses a value, once for each use."""
        use = self.llvm.GetFirstUse(value)
        while use:
            yield self.llvm.GetUser(use)
            use = self.llvm.GetNextUse(use)

    def op(self, it: int) -> str:
        """The word of an instruction."""
        return c.OPCODES.get(self.llvm.GetInstructionOpcode(it), "")

    def is_call(self, value: int) -> bool:
        """Whether this is a call."""
        return self.llvm.GetValueKind(value) == c.INSTRUCTION and self.op(value) == "call"

    def arguments(self, call: int) -> list[int]:
        """The arguments of a call."""
        return [self.llvm.GetOperand(call, k) for k in range(self.llvm.GetNumArgOperands(call))]

    def parameters(self, kind: int) -> list[int]:
        """The types of the parameters of a function's type."""
        room = (ctypes.c_void_p * self.llvm.CountParamTypes(kind))()
        self.llvm.GetParamTypes(kind, room)
        return [int(handle or 0) for handle in room]

    def function_type(self, result: int, parameters: Sequence[int]) -> int:
        """The type of functions of these parameters."""
        return int(self.llvm.FunctionType(result, array(parameters), len(parameters), 0))

    def function(self, name: str, kind: int) -> int:
        """The function of a name, which is declared where it isn't there."""
        llvm = self.llvm
        return int(llvm.GetNamedFunction(self.module, name.encode())
                   or llvm.AddFunction(self.module, name.encode(), kind))

    def before(self, it: int) -> None:
        """What is made next stands before an instruction, and has its line."""
        self.llvm.PositionBuilderBefore(self.builder, it)
        self.llvm.SetCurrentDebugLocation2(self.builder, self.llvm.InstructionGetDebugLoc(it))

    def call(self, function: int, kind: int, given: Sequence[int]) -> int:
        """A call of a function of this type."""
        return int(self.llvm.BuildCall2(self.builder, kind, function, array(given), len(given), b""))

    def cast(self, value: int, wanted: int) -> int:
        """A value as one of another type of the same size."""
        if self.llvm.TypeOf(value) == wanted:
            return value
        return int(self.llvm.BuildBitCast(self.builder, value, wanted, b""))

    def number(self, value: int) -> int:
        """A constant of 64 bits."""
        return int(self.llvm.ConstInt(self.long, value % (1 << 64), 0))

    def put(self, it: int, value: int | None) -> None:
        """A value stands for an instruction, which goes."""
        if value is not None and self.llvm.GetTypeKind(self.llvm.TypeOf(it)) != c.VOID:
            self.llvm.ReplaceAllUsesWith(it, value)
        self.llvm.InstructionEraseFromParent(it)

    def renamed(self, value: int, name: str) -> None:
        """Gives a value another name."""
        self.llvm.SetValueName2(value, name.encode(), len(name.encode()))

    def refused(self, it: int, reason: str) -> Refusal:
        """That an instruction can't be compiled."""
        place = Place(self.llvm.file(it), self.llvm.GetDebugLocLine(it))
        return Refusal(reason, place, self.llvm.text(self.llvm.PrintValueToString(it)).split(", !dbg")[0])
