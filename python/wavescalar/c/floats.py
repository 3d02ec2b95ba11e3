"""Operations of floating point, as calls of functions of the library that take and give the bits (library/float.c)."""

from __future__ import annotations

import re

from wavescalar.c import llvm_c as c
from wavescalar.c.edit import Edited

PREFIX = "wscc_f"  # how the names of these functions begin; behind it the bits of the format
NAMES = re.compile(rb"wscc_f(?:32|64)_\w+|sqrtf?|fmodf?")  # what the library's file of them has
FLOATING = re.compile(rb"= (?:f(?:add|sub|mul|div|rem|neg|cmp|pto[su]i|ptrunc|pext)|[su]itofp) |@llvm\.[\w.]+\.f(?:32|64)\(")
ARITHMETIC = ("fadd", "fsub", "fmul", "fdiv", "frem", "fneg", "fcmp", "fptoui", "fptosi", "uitofp", "sitofp", "fptrunc",
              "fpext")
# Comparisons: the function, whether operands are exchanged, and whether the answer is turned.
COMPARISONS = {
    "oeq": ("eq", False, False), "ogt": ("lt", True, False), "oge": ("le", True, False), "olt": ("lt", False, False),
    "ole": ("le", False, False), "ord": ("ord", False, False), "uno": ("ord", False, True), "ugt": ("le", False, True),
    "uge": ("lt", False, True), "ult": ("le", True, True), "ule": ("lt", True, True), "une": ("eq", False, True),
}
# Intrinsics: the function, and how many operands it takes.
INTRINSICS = {"sqrt": ("sqrt", 1), "floor": ("floor", 1), "ceil": ("ceil", 1), "trunc": ("trunc", 1), "rint": ("rint", 1),
              "nearbyint": ("rint", 1), "roundeven": ("rint", 1), "round": ("round", 1), "minnum": ("minnum", 2),
              "maxnum": ("maxnum", 2)}


def call(edited: Edited) -> None:
    """Replaces them in a module: all of `float` and `double`, but vectors."""
    for it in edited.instructions(*ARITHMETIC, "call"):
        _Floats(edited, it).replace()


class _Floats:
    """What stands for one operation."""

    def __init__(self, edited: Edited, it: int) -> None:
        self.edited, self.llvm, self.builder, self.it = edited, edited.llvm, edited.builder, it

    def replace(self) -> None:
        """Replaces it, where it is one that is known."""
        op = self.edited.op(self.it)
        name = self.llvm.name(self.llvm.GetCalledValue(self.it)).split(".") if op == "call" else []
        if op == "call" and (len(name) < 3 or name[0] != "llvm" or name[2] not in ("f32", "f64")):
            return
        own, of = self._width(self.it), self._width(self.llvm.GetOperand(self.it, 0))
        self.edited.before(self.it)
        found: int | None = None
        if op == "call":
            found = self._intrinsic(name[1], own)
        elif op in ("fadd", "fsub", "fmul", "fdiv", "frem") and own:
            found = self._call(own, op[1:], own, self._bits(0), self._bits(1))
        elif op == "fneg" and own:
            found = self.llvm.BuildXor(self.builder, self._bits(0), self._sign(own), b"")
        elif op == "fcmp" and of:
            found = self._compare(of)
        elif op in ("fptoui", "fptosi") and of and self._is_number(self.it):
            found = self._resized(self._call(of, "number", 64, self._bits(0)), self.llvm.TypeOf(self.it), False)
        elif op in ("uitofp", "sitofp") and own and self._is_number(self.llvm.GetOperand(self.it, 0)):
            number = self._resized(self.llvm.GetOperand(self.it, 0), self.edited.long, op == "sitofp")
            found = self._call(own, "signed" if op == "sitofp" else "unsigned", own, number)
        elif op in ("fptrunc", "fpext") and own and of:
            found = self._call(own, "narrowed" if op == "fptrunc" else "widened", own, self._bits(0))
        if found is not None:
            self.edited.put(self.it, self.edited.cast(found, self.llvm.TypeOf(self.it)))

    # Types and operands.

    def _width(self, value: int) -> int:
        """The bits of a value of floating point; 0 for others."""
        return c.FLOATS.get(self.llvm.GetTypeKind(self.llvm.TypeOf(value)), 0)

    def _is_number(self, value: int) -> bool:
        own = self.llvm.TypeOf(value)
        return bool(self.llvm.GetTypeKind(own) == c.INTEGER and self.llvm.GetIntTypeWidth(own) <= 64)

    def _integer(self, width: int) -> int:
        return int(self.llvm.IntTypeInContext(self.edited.context, width))

    def _bits(self, place: int) -> int:
        """The bits of an operand."""
        value = self.llvm.GetOperand(self.it, place)
        return self.edited.cast(value, self._integer(self._width(value)))

    def _sign(self, width: int) -> int:
        return int(self.llvm.ConstInt(self._integer(width), 1 << width - 1, 0))

    def _resized(self, number: int, wanted: int, is_signed: bool) -> int:
        """An integer as one of another width."""
        own, width = (self.llvm.GetIntTypeWidth(kind) for kind in (self.llvm.TypeOf(number), wanted))
        if own == width:
            return number
        extend = self.llvm.BuildSExt if is_signed else self.llvm.BuildZExt
        return int((self.llvm.BuildTrunc if own > width else extend)(self.builder, number, wanted, b""))

    def _call(self, width: int, name: str, gives: int, *given: int) -> int:
        """A call of a function of the library."""
        kind = self.edited.function_type(self._integer(gives), [self.llvm.TypeOf(value) for value in given])
        return self.edited.call(self.edited.function(f"{PREFIX}{width}_{name}", kind), kind, given)

    # Operations.

    def _compare(self, width: int) -> int:
        predicate = c.REALS[self.llvm.GetFCmpPredicate(self.it)]
        bit = self._integer(1)
        if predicate in ("true", "false"):
            return int(self.llvm.ConstInt(bit, predicate == "true", 0))
        one, other = self._bits(0), self._bits(1)
        if predicate in ("one", "ueq"):
            ways = [self._call(width, "lt", 32, *pair) for pair in ((one, other), (other, one))]
            found, is_turned = self.llvm.BuildOr(self.builder, *ways, b""), predicate == "ueq"
        else:
            name, is_exchanged, is_turned = COMPARISONS[predicate]
            found = self._call(width, name, 32, *((other, one) if is_exchanged else (one, other)))
        found = self.llvm.BuildTrunc(self.builder, found, bit, b"")
        return int(self.llvm.BuildXor(self.builder, found, self.llvm.ConstInt(bit, 1, 0), b"") if is_turned else found)

    def _intrinsic(self, name: str, width: int) -> int | None:
        if not width:
            return None
        if name in INTRINSICS:
            function, count = INTRINSICS[name]
            return self._call(width, function, width, *map(self._bits, range(count)))
        if name == "fmuladd":
            return self._call(width, "add", width, self._call(width, "mul", width, self._bits(0), self._bits(1)), self._bits(2))
        llvm, sign = self.llvm, self._sign(width)
        rest = llvm.ConstInt(self._integer(width), (1 << width - 1) - 1, 0)
        if name == "fabs":
            return int(llvm.BuildAnd(self.builder, self._bits(0), rest, b""))
        if name == "copysign":
            return int(llvm.BuildOr(self.builder, llvm.BuildAnd(self.builder, self._bits(0), rest, b""),
                                    llvm.BuildAnd(self.builder, self._bits(1), sign, b""), b""))
        return None
