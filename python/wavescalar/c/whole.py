"""Makes a program whole before it is optimized, and again after: with what it calls of the library, without calls by
pointers, and without what only clang's back ends have a form for.

A call by a pointer becomes a call of a function that is made here: it compares the pointer with each function whose
address is taken and that may be meant, and calls that one.
"""

from __future__ import annotations

import re
from collections.abc import Callable

from wavescalar.c import division, floats, labels, llvm_c as c, start, variadic
from wavescalar.c.edit import INTERNAL, Edited
from wavescalar.c.printing import expand

POINTED = "by_pointer."  # how the names of functions begin that are made for calls by pointers
BY_POINTER = re.compile(rb"^ .*\bcall\b.*%[\w.$-]+\(", re.MULTILINE)
PRINTS = re.compile(rb"^ .*\bcall\b.*@(?:f|s|sn)?printf\(", re.MULTILINE)
COMPUTED = re.compile(rb"^ *indirectbr ", re.MULTILINE)
DECLARED = re.compile(rb"^declare .*?@([\w.$]+)\(", re.MULTILINE)
DEFINED = re.compile(rb"^define .*?@([\w.$]+)\(", re.MULTILINE)
OWN = (b"llvm.", b"ws_read", b"ws_print", b"exit")
EQUAL = 32  # llvm-c/Core.h: LLVMIntEQ


def takes_arguments(text: bytes) -> bool:
    """Whether the `main` of a program has parameters. text: its IR, as it is written."""
    return start.WITH_PARAMETERS.search(text) is not None


def prepared(text: bytes, version: int) -> bytes:
    """The IR, as text, without parameters of `main`, computed `goto`s, and numbers of arguments that vary."""
    computed, varies, begins = COMPUTED.search(text), variadic.VARIADIC.search(text), takes_arguments(text)
    if not computed and not varies and not begins:
        return text
    edited = Edited(c.Llvm(version), text)
    if computed:
        labels.number(edited)
    if varies:
        variadic.expand(edited, text)
    if begins:
        start.begin(edited)
    return edited.text()


def completed(text: bytes, version: int, library: Callable[[str], bytes], as_text: bool = False) -> bytes | None:
    """The IR with what is missing; None where nothing is missing that can be added.

    version: of LLVM, the major one. library: gives the IR of a file of the library. as_text: whether `printf` prints characters.
    """
    prints, divides, floating = PRINTS.search(text), division.WIDE.search(text), floats.FLOATING.search(text)
    given = text
    if prints or divides or floating:
        edited = Edited(c.Llvm(version), text)
        if prints:
            expand(edited, as_text)
        if divides:
            division.call(edited)
        if floating:
            floats.call(edited)
        text = edited.text()
    lacks = {name for name in DECLARED.findall(text) if not name.startswith(OWN)}
    pointed = BY_POINTER.search(text) is not None
    if not lacks and not pointed:
        return text if text != given else None
    more = [found for found in (library(file) for file in _files(lacks)) if lacks & set(DEFINED.findall(found))]
    if not more and not pointed:
        return text if text != given else None
    whole = _Whole(c.Llvm(version), text)
    for found in more:
        whole.link(found)
    return whole.text() if whole.resolve() or more or text != given else None


def _files(lacks: set[bytes]) -> list[str]:
    """The files of the library in which these functions may be."""
    of_floats = {name for name in lacks if floats.NAMES.fullmatch(name)}
    return ["float.c"] * bool(of_floats) + ["library.c"] * bool(lacks - of_floats)


class _Whole(Edited):
    def __init__(self, llvm: c.Llvm, text: bytes) -> None:
        super().__init__(llvm, text)
        self.made: dict[tuple[int, int], tuple[int, int] | None] = {}

    def resolve(self) -> bool:
        """Replaces calls by pointers; whether there was one that could be replaced."""
        llvm, found = self.llvm, False
        for it in self.instructions("call"):
            if llvm.GetValueKind(llvm.GetCalledValue(it)) in (c.INSTRUCTION, c.ARGUMENT):
                found |= self._replace(it)
        return found

    def _replace(self, it: int) -> bool:
        llvm = self.llvm
        called, kind = llvm.GetCalledValue(it), llvm.GetCalledFunctionType(it)
        if llvm.IsFunctionVarArg(kind):  # of a function without parameters in its declaration
            kind = self.function_type(llvm.GetReturnType(kind), [llvm.TypeOf(value) for value in self.arguments(it)])
        key = kind, llvm.TypeOf(called)
        if key not in self.made:
            self.made[key] = self._dispatcher(*key)
        found = self.made[key]
        if found is None:
            return False
        self.before(it)
        self.put(it, self.call(*found, [called, *self.arguments(it)]))
        return True

    # The functions that are made.

    def _alike(self, one: int, other: int) -> bool:
        """Whether a value of one type may stand for one of the other: all pointers may."""
        llvm = self.llvm
        kinds = [llvm.GetTypeKind(one), llvm.GetTypeKind(other)]
        return one == other or kinds == [c.POINTER_TYPE, c.POINTER_TYPE]

    def _is_taken(self, function: int) -> bool:
        """Whether its address is used, not only called."""
        return any(not self.is_call(user) or function in self.arguments(user) for user in self.users(function))

    def _targets(self, kind: int) -> list[int]:
        """The functions that a call of this type may mean."""
        llvm = self.llvm
        wanted = [llvm.GetReturnType(kind), *self.parameters(kind)]
        found: list[int] = []
        for function in self.functions():
            own = llvm.GlobalGetValueType(function)
            parts = [llvm.GetReturnType(own), *self.parameters(own)]
            if len(parts) == len(wanted) and all(map(self._alike, parts, wanted)) and not llvm.IsFunctionVarArg(own) \
                    and not llvm.name(function).startswith(("llvm.", POINTED)) and self._is_taken(function):
                found.append(function)
        return found

    def _dispatcher(self, kind: int, pointer: int) -> tuple[int, int] | None:
        """A function that calls what its first argument points to, and its type; None where nothing can be meant."""
        llvm = self.llvm
        targets = self._targets(kind)
        if not targets:
            return None
        given = [pointer, *self.parameters(kind)]
        own = self.function_type(llvm.GetReturnType(kind), given)
        made = llvm.AddFunction(self.module, f"{POINTED}{len(self.made)}".encode(), own)
        llvm.SetLinkage(made, INTERNAL)
        here = llvm.AppendBasicBlockInContext(self.context, made, b"first")
        for target in targets:
            llvm.PositionBuilderAtEnd(self.builder, here)
            llvm.SetCurrentDebugLocation2(self.builder, None)
            if target != targets[-1]:
                yes = llvm.AppendBasicBlockInContext(self.context, made, b"this")
                here = llvm.AppendBasicBlockInContext(self.context, made, b"next")
                same = llvm.BuildICmp(self.builder, EQUAL, llvm.GetParam(made, 0),
                                      llvm.ConstBitCast(target, pointer), b"is")
                llvm.BuildCondBr(self.builder, same, yes, here)
                llvm.PositionBuilderAtEnd(self.builder, yes)
            self._call(target, made, kind)
        return made, own

    def _call(self, target: int, made: int, kind: int) -> None:
        llvm = self.llvm
        own = llvm.GlobalGetValueType(target)
        result = self.call(target, own, [self.cast(llvm.GetParam(made, k + 1), wanted)
                                         for k, wanted in enumerate(self.parameters(own))])
        wanted = llvm.GetReturnType(kind)
        if llvm.GetTypeKind(wanted) == c.VOID:
            llvm.BuildRetVoid(self.builder)
        else:
            llvm.BuildRet(self.builder, self.cast(result, wanted))
