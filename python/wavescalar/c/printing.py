"""Takes calls of `printf` and its like apart, whose formats are constants: each part of a format becomes a call of its own.

What is printed is words: as *text* the codes of all characters, else one word for each number and character, without the
text between them. What `sprintf` and `snprintf` make is text. The functions that are called are those of the library
(library.c), or `ws_print`.
"""

from __future__ import annotations

import ctypes
import re
from collections.abc import Iterator
from dataclasses import dataclass

from wavescalar.c import llvm_c as c
from wavescalar.c.edit import Edited

PRINTING = {b"printf": 0, b"fprintf": 1, b"sprintf": 1, b"snprintf": 2}  # how many arguments stand before the format
CONVERSION = re.compile(rb"%([-+ #0]*)(\*|\d*)(?:\.(\*|\d*))?(hh|h|ll|l|j|z|t)?(.)", re.DOTALL)
WIDTHS = {b"hh": 8, b"h": 16, b"": 32}  # of numbers, in bits; others have 64
FLAGS = {flag: 1 << place for place, flag in enumerate(b"-+ #0")}
PUTS = {b"s": "wscc_put_string", b"c": "wscc_put_char", b"d": "wscc_put_signed"}  # others are unsigned numbers
ENDLESS = (1 << 64) - 1  # characters of which a string is thought to have room
BASES = {b"u": 10, b"o": 8, b"x": 16, b"X": 17}  # 17 stands for 16 with capital letters


@dataclass(frozen=True)
class Part:
    """A part of a format: text, or a conversion with its flags, its width and its precision, -1 where it has none and
    None where it is an argument."""

    text: bytes = b""
    kind: bytes = b""
    flags: int = 0
    width: int | None = 0
    precision: int | None = -1
    bits: int = 32


def parts(form: bytes) -> Iterator[Part]:
    """The parts of a format. Raises ValueError, with the conversion, for one that isn't known."""
    at = 0
    while at < len(form):
        percent = form.find(b"%", at)
        if percent != at:
            end = percent if percent >= 0 else len(form)
            yield Part(form[at:end])
            at = end
            continue
        found = CONVERSION.match(form, at)
        if not found or found[5] not in b"diuoxXcs%":
            raise ValueError(found[0].decode(errors="replace") if found else "%")
        at = found.end()
        if found[5] == b"%":
            yield Part(b"%")
            continue
        flags = sum({FLAGS[flag] for flag in found[1]})
        width = None if found[2] == b"*" else int(found[2] or 0)
        precision = -1 if found[3] is None else None if found[3] == b"*" else int(found[3] or 0)
        yield Part(b"", found[5].replace(b"i", b"d"), flags, width, precision, WIDTHS.get(found[4] or b"", 64))


def expand(edited: Edited, as_text: bool) -> None:
    """Replaces the calls of these functions in a module, unless the program has its own. as_text: whether characters are
    printed.

    Raises Refusal for a call that can't be replaced.
    """
    llvm = edited.llvm
    for name, before in PRINTING.items():
        function = llvm.GetNamedFunction(edited.module, name)
        if not function or not llvm.IsDeclaration(function):
            continue
        made = _ToString if name in (b"sprintf", b"snprintf") else _Printing
        for it in edited.instructions("call"):
            if llvm.GetCalledValue(it) == function:
                made(edited, as_text, name.decode(), before).expand(it)


class _Printing:
    def __init__(self, edited: Edited, as_text: bool, name: str, before: int) -> None:
        """name: the function's. before: how many arguments stand before the format."""
        self.edited, self.llvm, self.as_text, self.name, self.before = edited, edited.llvm, as_text, name, before
        self.builder = edited.builder

    def expand(self, it: int) -> None:
        """Replaces a call."""
        llvm = self.llvm
        if llvm.GetFirstUse(it):
            raise self.edited.refused(it, f"the result of {self.name} is used")
        if self.before and self._stream(llvm.GetOperand(it, 0)) != "stdout":
            if self._stream(llvm.GetOperand(it, 0)) != "stderr":
                raise self.edited.refused(it, "fprintf to another stream than stdout and stderr")
        else:
            self._expand_format(it)
        llvm.InstructionEraseFromParent(it)

    def _expand_format(self, it: int) -> None:
        """Puts what stands for the parts of a format in front of a call."""
        form = self._constant(self.llvm.GetOperand(it, self.before))
        if form is None:
            raise self.edited.refused(it, f"the format of {self.name} isn't constant")
        given = self.edited.arguments(it)[self.before + 1:]
        self.edited.before(it)
        try:
            for part in parts(form):
                self._print(part, given)
        except ValueError as fault:
            raise self.edited.refused(it, f"{fault} in a format of {self.name}") from fault
        except IndexError as fault:
            raise self.edited.refused(it, f"{self.name} has fewer arguments than its format takes") from fault

    def _stream(self, value: int) -> str:
        """The name of the variable from which a stream is loaded; empty where there is none."""
        is_load = self.llvm.GetValueKind(value) == c.INSTRUCTION and self.edited.op(value) == "load"
        return self.llvm.name(self.llvm.GetOperand(value, 0)) if is_load else ""

    def _constant(self, value: int) -> bytes | None:
        """The string to which a constant points, up to its end."""
        llvm = self.llvm
        while llvm.GetValueKind(value) == c.EXPRESSION:
            op = c.OPCODES.get(llvm.GetConstOpcode(value))
            indices = [llvm.GetOperand(value, k) for k in range(1, llvm.GetNumOperands(value))]
            if op != "bitcast" and (op != "getelementptr" or any(llvm.ConstIntGetZExtValue(index) for index in indices)):
                return None
            value = llvm.GetOperand(value, 0)
        if llvm.GetValueKind(value) != c.GLOBAL or not llvm.IsGlobalConstant(value):
            return None
        start = llvm.GetInitializer(value)
        if not start or llvm.GetValueKind(start) not in (c.DATA_ARRAY, c.ZEROS):
            return None
        if llvm.GetValueKind(start) == c.ZEROS:
            return b""
        length = ctypes.c_size_t()
        call = llvm.library.LLVMGetAsString
        call.restype, call.argtypes = ctypes.c_void_p, [ctypes.c_void_p, ctypes.POINTER(ctypes.c_size_t)]
        found = call(start, ctypes.byref(length))
        return ctypes.string_at(found, length.value).partition(b"\0")[0]

    def _print(self, part: Part, given: list[int]) -> None:
        if not part.kind:
            for code in part.text if self.as_text else b"":
                self._call("wscc_put", [self.edited.number(code)])
            return
        width, precision = (self._wide(given.pop(0), 32, True) if number is None else self.edited.number(number)
                            for number in (part.width, part.precision))
        value = given.pop(0)
        if part.kind == b"s":
            value = self.llvm.BuildBitCast(self.builder, value, self.edited.pointer, b"")
        else:
            value = self._wide(value, 8 if part.kind == b"c" else part.bits, part.kind == b"d")
        if self.as_text:
            base = [self.edited.number(BASES[part.kind])] if part.kind in BASES else []
            self._call(PUTS.get(part.kind, "wscc_put_unsigned"),
                       [value, *base, self.edited.number(part.flags), width, precision])
        elif part.kind == b"s":
            self._call("wscc_print_string", [value, precision])
        else:
            self._call("ws_print", [value])

    def _wide(self, value: int, bits: int, signed: bool) -> int:
        """A number of so many bits as a word."""
        llvm = self.llvm
        own = llvm.TypeOf(value)
        if llvm.GetTypeKind(own) != c.INTEGER:
            raise ValueError("an argument that is no number")
        if bits < llvm.GetIntTypeWidth(own):
            value = llvm.BuildTrunc(self.builder, value, self.edited.byte if bits == 8 else self._short(bits), b"")
        extend = llvm.BuildSExt if signed else llvm.BuildZExt
        return int(value if llvm.GetIntTypeWidth(llvm.TypeOf(value)) == 64 else extend(self.builder, value, self.edited.long, b""))

    def _short(self, bits: int) -> int:
        return int(self.llvm.IntTypeInContext(self.edited.context, bits))

    def _call(self, name: str, given: list[int], result: int = 0) -> int:
        """Calls a function of the library. result: the type of its result, where it has one."""
        llvm, edited = self.llvm, self.edited
        result = result or int(llvm.VoidTypeInContext(edited.context))
        own = edited.function_type(result, [llvm.TypeOf(value) for value in given])
        return edited.call(edited.function(name, own), own, given)


class _ToString(_Printing):
    def expand(self, it: int) -> None:
        """Replaces a call of `sprintf` or `snprintf`."""
        self.as_text = True
        self.edited.before(it)
        target = self.edited.cast(self.llvm.GetOperand(it, 0), self.edited.pointer)
        size = self.llvm.GetOperand(it, 1) if self.before > 1 else self.edited.number(ENDLESS)
        self._call("wscc_string", [target, size])
        self._expand_format(it)
        self.edited.put(it, self._call("wscc_length", [], self.edited.int))
