"""Functions of the program with a variable number of arguments get one parameter more: a pointer to the arguments.

A call lays them down as x86-64's calls do in memory, each at a multiple of 8 bytes. `va_start` says that no register
has any, so that clang's `va_arg` takes all from there.
"""

from __future__ import annotations

import ctypes
import re

from wavescalar.c import llvm_c as c
from wavescalar.c.edit import INTERNAL, Edited, array

VARIADIC = re.compile(rb"^define [^\n]*\.\.\.\)", re.MULTILINE)
ALIGNED = re.compile(rb"%overflow_arg_area\.align")  # clang's name where an argument lies at a multiple of 16
REGISTERS = ((0, 48), (4, 176))  # where `va_list` counts registers, in bytes, and what it counts when all are taken
AREA = 8  # where in it lies the pointer to the arguments in memory
LIST = 24  # bytes of a `va_list`


def expand(edited: Edited, text: bytes) -> None:
    """Makes all functions of a module that have bodies take a fixed number. text: the module's.

    Raises Refusal where an argument is of 16 bytes.
    """
    _Variadic(edited, bool(ALIGNED.search(text))).expand()


class _Variadic:
    def __init__(self, edited: Edited, is_aligned: bool) -> None:
        self.edited, self.llvm, self.is_aligned = edited, edited.llvm, is_aligned
        self.made: dict[int, int] = {}
        self.by_value = self.llvm.GetEnumAttributeKindForName(b"byval", 5)

    def expand(self) -> None:
        """Does all."""
        llvm, edited = self.llvm, self.edited
        for function in edited.functions():
            if llvm.IsFunctionVarArg(llvm.GlobalGetValueType(function)) and not llvm.IsDeclaration(function):
                self.made[function] = self._replaced(function)
        self._lists()
        for call in edited.instructions("call"):
            called = llvm.GetCalledValue(call)
            kind = llvm.GetCalledFunctionType(call)
            if called in self.made:
                self._call(call, self.made[called], llvm.GlobalGetValueType(self.made[called]))
            elif llvm.GetValueKind(called) in (c.INSTRUCTION, c.ARGUMENT) and llvm.IsFunctionVarArg(kind) \
                    and edited.parameters(kind):
                own = self._fixed(kind)
                edited.before(call)
                self._call(call, edited.cast(called, llvm.PointerType(own, 0)), own)
        for old, made in self.made.items():
            llvm.ReplaceAllUsesWith(old, llvm.ConstBitCast(made, llvm.TypeOf(old)))
            llvm.DeleteFunction(old)

    def _fixed(self, kind: int) -> int:
        return self.edited.function_type(self.llvm.GetReturnType(kind),
                                         [*self.edited.parameters(kind), self.edited.pointer])

    def _replaced(self, old: int) -> int:
        """A function with the body of another, and a parameter more."""
        llvm = self.llvm
        name = llvm.name(old)
        self.edited.renamed(old, "")
        made = int(llvm.AddFunction(self.edited.module, name.encode(), self._fixed(llvm.GlobalGetValueType(old))))
        llvm.SetLinkage(made, INTERNAL)
        llvm.SetSubprogram(made, llvm.GetSubprogram(old))
        llvm.SetSubprogram(old, None)
        first = llvm.AppendBasicBlockInContext(self.edited.context, made, b"")
        for block in list(llvm.chain(old, "GetFirstBasicBlock", "GetNextBasicBlock")):
            llvm.MoveBasicBlockBefore(block, first)
        llvm.DeleteBasicBlock(first)
        count = llvm.CountParams(old)
        for k in range(count):
            mine = llvm.GetParam(made, k)
            self.edited.renamed(mine, llvm.name(llvm.GetParam(old, k)))
            llvm.ReplaceAllUsesWith(llvm.GetParam(old, k), mine)
            for attribute in self._attributes("GetAttributeCountAtIndex", "GetAttributesAtIndex", old, k + 1):
                llvm.AddAttributeAtIndex(made, k + 1, attribute)
        return made

    def _attributes(self, count: str, get: str, of: int, place: int) -> list[int]:
        """The attributes of a parameter or an argument, numbered from 1."""
        room = (ctypes.c_void_p * getattr(self.llvm, count)(of, place))()
        getattr(self.llvm, get)(of, place, room)
        return [int(handle or 0) for handle in room]

    # In bodies.

    def _lists(self) -> None:
        """Replaces what `va_start` and its kin become."""
        llvm, edited = self.llvm, self.edited
        for it in edited.instructions("call"):
            name = llvm.name(llvm.GetCalledValue(it))
            if name not in ("llvm.va_start", "llvm.va_copy", "llvm.va_end"):
                continue
            edited.before(it)
            where = llvm.GetOperand(it, 0)
            if name == "llvm.va_start":
                self._start(it, where)
            elif name == "llvm.va_copy":
                llvm.BuildMemCpy(edited.builder, where, 8, llvm.GetOperand(it, 1), 8, edited.number(LIST))
            llvm.InstructionEraseFromParent(it)

    def _start(self, it: int, where: int) -> None:
        """All registers are taken, and the arguments lie where the last parameter points."""
        llvm = self.llvm
        function = llvm.GetBasicBlockParent(llvm.GetInstructionParent(it))
        for offset, taken in REGISTERS:
            self._store(llvm.ConstInt(self.edited.int, taken, 0), where, offset)
        self._store(llvm.GetParam(function, llvm.CountParams(function) - 1), where, AREA)

    def _place(self, where: int, offset: int, kind: int) -> int:
        """A pointer to a value of a type, so many bytes further."""
        llvm, edited = self.llvm, self.edited
        at = llvm.BuildGEP2(edited.builder, edited.byte, where, array([edited.number(offset)]), 1, b"")
        return edited.cast(at, llvm.PointerType(kind, 0))

    def _store(self, value: int, where: int, offset: int) -> None:
        self.llvm.BuildStore(self.edited.builder, value, self._place(where, offset, self.llvm.TypeOf(value)))

    # At a call.

    def _call(self, it: int, function: int, kind: int) -> None:
        """Calls a function that was made, with the arguments laid down."""
        llvm, edited = self.llvm, self.edited
        fixed = len(edited.parameters(kind)) - 1
        given = edited.arguments(it)
        if self.is_aligned:
            raise edited.refused(it, "a variable number of arguments, and one of them of 16 bytes")
        edited.before(it)
        rest = self._laid(it, given[fixed:], fixed)
        made = edited.call(function, kind, [*given[:fixed], rest])
        for k in range(fixed):
            for attribute in self._attributes("GetCallSiteAttributeCount", "GetCallSiteAttributes", it, k + 1):
                llvm.AddCallSiteAttribute(made, k + 1, attribute)
        edited.put(it, made)

    def _laid(self, it: int, given: list[int], fixed: int) -> int:
        """Stores arguments into an array of the caller's; a pointer to it, or null where there are none."""
        llvm, edited = self.llvm, self.edited
        layout = llvm.GetModuleDataLayout(edited.module)
        kinds = [self._copied(it, fixed + k + 1) for k in range(len(given))]
        sizes = [int(llvm.ABISizeOfType(layout, kind or llvm.TypeOf(value))) for kind, value in zip(kinds, given)]
        if not given:
            return int(llvm.ConstNull(edited.pointer))
        where = self._array(it, sum(-(-size // 8) for size in sizes))
        at = 0
        for value, kind, size in zip(given, kinds, sizes):
            if llvm.ABIAlignmentOfType(layout, kind or llvm.TypeOf(value)) > 8:
                raise edited.refused(it, "a variable number of arguments, and one of them of 16 bytes")
            if kind:
                llvm.BuildMemCpy(edited.builder, self._place(where, at, edited.byte), 8,
                                 edited.cast(value, edited.pointer), 1, edited.number(size))
            else:
                self._store(value, where, at)
            at += -(-size // 8) * 8
        return where

    def _copied(self, it: int, place: int) -> int | None:
        """The type of an argument of which the callee gets a copy."""
        found = self.llvm.GetCallSiteEnumAttribute(it, place, self.by_value)
        return int(self.llvm.GetTypeAttributeValue(found)) if found else None

    def _array(self, it: int, words: int) -> int:
        """A local array of so many words, as a pointer to bytes."""
        llvm, edited = self.llvm, self.edited
        first = llvm.GetFirstInstruction(llvm.GetEntryBasicBlock(llvm.GetBasicBlockParent(llvm.GetInstructionParent(it))))
        llvm.PositionBuilderBefore(edited.builder, first)
        made = llvm.BuildAlloca(edited.builder, llvm.ArrayType(edited.long, words), b"arguments")
        edited.before(it)
        return edited.cast(made, edited.pointer)
