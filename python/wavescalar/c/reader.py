"""From LLVM's IR to the data of `ir.py`, by LLVM's own C library.

The library of LLVM 14 has no call for the flags `nuw` and `nsw`; they are taken from the module's text, in which the
instructions stand in the library's order.
"""

from __future__ import annotations

import re
from collections.abc import Iterator

from wavescalar.c import llvm_c as c
from wavescalar.c.faults import Place, Refusal
from wavescalar.c.ir import (
    Address, Datum, Element, Expression, Global, Instr, Int, IrBlock, Local, Module, Null, Operand, Type, Undefined,
    Unread, computed,
)

# Intrinsics without an effect on values or memory.
SILENT = ("llvm.dbg.", "llvm.lifetime.", "llvm.assume", "llvm.experimental.noalias", "llvm.invariant.",
          "llvm.donothing", "llvm.sideeffect", "llvm.annotation")
FLAGS = re.compile(r"\b(nuw|nsw|exact)\b")


def read(text: bytes, file: str, version: int = 14) -> Module:
    """The module of a text or bitcode of IR, by the library of this major version of LLVM.

    file: what C's source is called where debug information doesn't say. Raises Refusal where there is no `main`.
    """
    return _Reader(c.Llvm(version), text, file).module()


class _Reader:
    def __init__(self, llvm: c.Llvm, text: bytes, file: str) -> None:
        self.llvm, self.file = llvm, file
        self.handle = llvm.parse(text)
        self.layout = llvm.GetModuleDataLayout(self.handle)
        self.numbers: dict[int, int] = {}
        self.blocks: dict[int, int] = {}
        self.here = Place(file, 0)
        self.functions: dict[str, Global] = {}  # those whose addresses are used, as objects

    def module(self) -> Module:
        """All that the module has for the front end."""
        llvm = self.llvm
        functions = list(llvm.chain(self.handle, "GetFirstFunction", "GetNextFunction"))
        main = next((f for f in functions if llvm.name(f) == "main" and not llvm.IsDeclaration(f)), None)
        if main is None:
            raise Refusal("there is no function main", self.here)
        objects = {llvm.name(g): self._global(g)
                   for g in llvm.chain(self.handle, "GetFirstGlobal", "GetNextGlobal")
                   if not llvm.IsDeclaration(g) and not llvm.name(g).startswith("llvm.")}
        others = frozenset(llvm.name(f) for f in functions if f != main and not llvm.IsDeclaration(f))
        bodies = {llvm.name(f): f for f in functions if not llvm.IsDeclaration(f)}
        texts = _instruction_lines(llvm.text(llvm.PrintModuleToString(self.handle)))
        blocks: list[IrBlock] = []
        entries: dict[str, int] = {}
        params: dict[str, tuple[int, ...]] = {}
        waiting = ["main"]
        while waiting:
            name = waiting.pop(0)
            if name not in entries:
                entries[name] = len(blocks)
                made, params[name] = self._function(bodies[name], name, iter(texts.get(name, [])), len(blocks))
                blocks += made
                calls = [it for block in made for it in block.instrs if it.op == "call"]
                waiting += [it.callee for it in calls if it.callee in bodies]
        return Module(self.file, blocks, {**objects, **self.functions}, others, entries, params)

    # The function.

    def _function(self, function: int, name: str, texts: Iterator[str],
                  first: int) -> tuple[list[IrBlock], tuple[int, ...]]:
        """The blocks of a function, numbered from `first`, and the numbers of its parameters; main's have none."""
        llvm = self.llvm
        handles: list[list[tuple[int, str]]] = []
        blocks: list[IrBlock] = []
        told = llvm.GetSubprogram(function)
        self.here = Place(self.file, llvm.DISubprogramGetLine(told) if told else 0)
        for number, block in enumerate(llvm.chain(function, "GetFirstBasicBlock", "GetNextBasicBlock"), first):
            self.blocks[llvm.BasicBlockAsValue(block)] = self.blocks[block] = number
            blocks.append(IrBlock(number, llvm.name(llvm.BasicBlockAsValue(block))))
            kept = [(it, next(texts)) for it in llvm.chain(block, "GetFirstInstruction", "GetNextInstruction")]
            handles.append([(it, text) for it, text in kept if not self._is_silent(it)])
        params = [] if name == "main" else [llvm.GetParam(function, k) for k in range(llvm.CountParams(function))]
        for it in (*params, *(it for pairs in handles for it, _ in pairs)):
            self.numbers[it] = len(self.numbers)
        for made, pairs in zip(blocks, handles):
            made.instrs = [self._instruction(it, text) for it, text in pairs]
        blocks[0].instrs[:0] = [Instr(self.numbers[it], "param", self._type(llvm.TypeOf(it)), (), (), self.here,
                                      f"a parameter of {name}", name=llvm.name(it)) for it in params]
        return blocks, tuple(self.numbers[it] for it in params)

    def _is_silent(self, it: int) -> bool:
        is_call = c.OPCODES.get(self.llvm.GetInstructionOpcode(it)) == "call"
        return is_call and (self._callee(it) or "").startswith(SILENT)

    def _callee(self, it: int) -> str | None:
        called = self.llvm.GetCalledValue(it)
        return self.llvm.name(called) if self.llvm.GetValueKind(called) == c.FUNCTION else None

    def _place(self, it: int) -> Place:
        line = self.llvm.GetDebugLocLine(it)
        if line:
            self.here = Place(self.llvm.file(it) or self.file, line)
        return self.here

    def _instruction(self, it: int, text: str) -> Instr:
        llvm = self.llvm
        op = c.OPCODES.get(llvm.GetInstructionOpcode(it), "unknown")
        if op == "phi":
            handles = [llvm.GetIncomingValue(it, k) for k in range(llvm.CountIncoming(it))]
        elif op == "call":
            handles = [llvm.GetOperand(it, k) for k in range(llvm.GetNumArgOperands(it))]
        elif op == "br":
            handles = [llvm.GetOperand(it, 0)] if llvm.GetNumOperands(it) == 3 else []
        else:
            handles = [llvm.GetOperand(it, k) for k in range(llvm.GetNumOperands(it))]
        made = Instr(
            self.numbers[it], op, self._type(llvm.TypeOf(it)), tuple(map(self._operand, handles)),
            tuple(self._type(llvm.TypeOf(handle)) for handle in handles), self._place(it), text,
            flags=frozenset(FLAGS.findall(text.split("%", 2)[1] if text.startswith("%") else text)),
            name=llvm.name(it),
        )
        if op == "bitcast" and made.type.kind == "int":
            made.op = "freeze"  # of a float: numbers of floating point are their bits
        elif op == "icmp":
            made.predicate = c.PREDICATES[llvm.GetICmpPredicate(it)]
        elif op == "call":
            made.callee = self._callee(it)
        elif op == "br":
            made.blocks = tuple(self.blocks[llvm.GetSuccessor(it, k)] for k in range(llvm.GetNumSuccessors(it)))
        elif op == "phi":
            made.blocks = tuple(self.blocks[llvm.GetIncomingBlock(it, k)] for k in range(len(handles)))
        elif op == "getelementptr":
            made.element = self._element(it)
        elif op == "alloca":
            made.size = llvm.ABISizeOfType(self.layout, llvm.GetAllocatedType(it)) * self._count(it)
        elif op in ("load", "store") and llvm.GetOrdering(it):
            made.op = f"atomic {op}"
        elif op == "extractvalue":
            made.size = llvm.GetIndices(it)[0] if llvm.GetNumIndices(it) == 1 else -1
        return made

    def _count(self, alloca: int) -> int:
        """How many values an `alloca` has room for; 0 where that isn't a constant."""
        count = self.llvm.GetOperand(alloca, 0)
        return int(self.llvm.ConstIntGetZExtValue(count)) if self.llvm.GetValueKind(count) == c.CONSTANT_INT else 0

    # Types and operands.

    def _type(self, handle: int) -> Type:
        llvm = self.llvm
        kind = llvm.GetTypeKind(handle)
        if kind == c.INTEGER:
            return Type("int", llvm.GetIntTypeWidth(handle))
        if kind in c.FLOATS:
            return Type("int", c.FLOATS[kind])
        if kind == c.POINTER_TYPE:
            return Type("ptr", 64)
        if kind == c.VOID:
            return Type("void")
        return Type("struct" if kind == c.STRUCT else "other", 0, llvm.text(llvm.PrintTypeToString(handle)))

    def _operand(self, value: int) -> Operand:
        llvm = self.llvm
        kind = llvm.GetValueKind(value)
        if kind == c.INSTRUCTION:
            return Local(self.numbers[value])
        if kind == c.CONSTANT_INT:
            width = llvm.GetIntTypeWidth(llvm.TypeOf(value))
            if width > 64:
                told = llvm.text(llvm.PrintValueToString(value)).split()
                return Int(int(told[1]) % (1 << width), width)
            return Int(int(llvm.ConstIntGetZExtValue(value)), width)
        if kind == c.CONSTANT_REAL and llvm.GetTypeKind(llvm.TypeOf(value)) in c.FLOATS:
            width = c.FLOATS[llvm.GetTypeKind(llvm.TypeOf(value))]
            bits = llvm.IntTypeInContext(llvm.GetTypeContext(llvm.TypeOf(value)), width)
            return self._operand(llvm.ConstBitCast(value, bits))
        if kind == c.NULL:
            return Null()
        if kind in (c.UNDEF, c.POISON):
            return Undefined()
        if kind == c.GLOBAL:
            return Address(llvm.name(value), 0)
        if kind == c.EXPRESSION:
            return self._expression(value)
        if kind == c.ARGUMENT:
            return Local(self.numbers[value]) if value in self.numbers else Unread("a parameter of main")
        if kind == c.BLOCK_ADDRESS:
            return Unread("the address of a label")
        if kind == c.FUNCTION:
            self.functions.setdefault(llvm.name(value), Global(llvm.name(value), 1, (), self.here))
            return Address(llvm.name(value), 0)
        return Unread("a constant of this kind")

    def _expression(self, value: int) -> Operand:
        """A constant expression: an address, or none that the front end knows."""
        op = c.OPCODES.get(self.llvm.GetConstOpcode(value), "unknown")
        if op in ("bitcast", "addrspacecast"):
            return self._operand(self.llvm.GetOperand(value, 0))
        if op == "getelementptr":
            found = self._element(value)
            if isinstance(found.base, Address) and not found.indices:
                return Address(found.base.object, found.base.offset + found.offset)
        parts = [self._operand(self.llvm.GetOperand(value, k)) for k in range(self.llvm.GetNumOperands(value))]
        predicate = c.PREDICATES.get(self.llvm.GetICmpPredicate(value), "") if op == "icmp" else ""
        own = self._type(self.llvm.TypeOf(value))
        widths = [self._type(self.llvm.TypeOf(self.llvm.GetOperand(value, k))).width for k in range(len(parts))]
        return folded(op, parts, widths, own.width if own.kind == "int" else 0, predicate)

    def _element(self, gep: int) -> Element:
        """The address that a `getelementptr`, an instruction or a constant, computes."""
        llvm = self.llvm
        offset, indices = 0, []
        kind = llvm.GetGEPSourceElementType(gep)
        for place in range(1, llvm.GetNumOperands(gep)):
            index = llvm.GetOperand(gep, place)
            if place > 1 and llvm.GetTypeKind(kind) == c.STRUCT:
                field = int(llvm.ConstIntGetZExtValue(index))
                offset += llvm.OffsetOfElement(self.layout, kind, field)
                kind = llvm.StructGetTypeAtIndex(kind, field)
                continue
            if place > 1:
                kind = llvm.GetElementType(kind)
            stride = int(llvm.ABISizeOfType(self.layout, kind))
            if llvm.GetValueKind(index) == c.CONSTANT_INT:
                offset += int(llvm.ConstIntGetSExtValue(index)) * stride
            else:
                indices.append((self._operand(index), stride))
        return Element(self._operand(llvm.GetOperand(gep, 0)), offset, tuple(indices))

    # Global objects.

    def _global(self, handle: int) -> Global:
        llvm = self.llvm
        name, kind = llvm.name(handle), llvm.GlobalGetValueType(handle)
        start = llvm.GetInitializer(handle)
        data = sorted(self._data(start, 0), key=lambda datum: datum.offset) if start else []
        place = Place(llvm.file(handle) or self.file, llvm.GetDebugLocLine(handle))
        return Global(name, int(llvm.ABISizeOfType(self.layout, kind)), tuple(data), place)

    def _data(self, value: int, offset: int) -> Iterator[Datum]:
        """What isn't zero in a constant that lies at this offset of an object."""
        llvm, kind = self.llvm, self.llvm.GetValueKind(value)
        if kind in (c.ZEROS, c.UNDEF, c.POISON, c.NULL):
            return
        of_type = llvm.TypeOf(value)
        if kind == c.CONSTANT_STRUCT:
            for k in range(llvm.CountStructElementTypes(of_type)):
                at = int(llvm.OffsetOfElement(self.layout, of_type, k))
                yield from self._data(llvm.GetOperand(value, k), offset + at)
        elif kind in (c.CONSTANT_ARRAY, c.DATA_ARRAY):
            size = int(llvm.ABISizeOfType(self.layout, llvm.GetElementType(of_type)))
            for k in range(llvm.GetArrayLength(of_type)):
                part = llvm.GetOperand(value, k) if kind == c.CONSTANT_ARRAY else llvm.GetElementAsConstant(value, k)
                yield from self._data(part, offset + k * size)
        else:
            yield from self._datum(value, offset)

    def _datum(self, value: int, offset: int) -> Iterator[Datum]:
        found = self._operand(value)
        if isinstance(found, Int):
            if found.value:
                yield Datum(offset, (found.width + 7) // 8, found.value)
        elif isinstance(found, Expression):
            yield Datum(offset, (found.width + 7) // 8, found)
        elif isinstance(found, (Address, Unread)):
            yield Datum(offset, 8, found)


def folded(op: str, parts: list[Operand], widths: list[int], width: int, predicate: str = "") -> Operand:
    """What a constant expression is: a number, an address, or what is computed when addresses are known.

    Two objects have different addresses, and none is null; LLVM leaves that to the linker.
    """
    if op == "icmp" and predicate in ("eq", "ne") and all(isinstance(part, (Address, Null)) for part in parts):
        return Int(int((parts[0] == parts[1]) == (predicate == "eq")), 1)
    if op == "select" and isinstance(parts[0], Int):
        return parts[1 if parts[0].value else 2]
    unread = next((part for part in parts if isinstance(part, Unread)), None)
    if unread or not 0 < width <= 64:
        return unread or Unread(f"the constant expression {op}")
    numbers = [part.value for part in parts if isinstance(part, Int)]
    found = computed(op, numbers if len(numbers) == len(parts) else [1] * len(parts), widths, width, predicate)
    if found is None:
        return Unread(f"the constant expression {op}")
    if len(numbers) == len(parts):
        return Int(found, width)
    return Expression(op, tuple(parts), tuple(widths), width, predicate)


def _instruction_lines(text: str) -> dict[str, list[str]]:
    """The text of each instruction of each function, in order, without its metadata."""
    found: dict[str, list[str]] = {}
    inside: list[str] = []
    for line in text.splitlines():
        if line.startswith("define "):
            name = re.search(r'@(?:"([^"]*)"|([\w.$-]+))\(', line)
            inside = found.setdefault((name[1] or name[2]) if name else "", [])
        elif line.startswith("  ") and not line.startswith(("   ", "  ]")):
            inside.append(re.sub(r"( #\d+)?(, !.*)?$", "", line.strip()))
    return found
