"""Makes a random C program without undefined behaviour, for `compare.py`: loops, arrays, structs, pointers, recursion,
all widths and signs.

    python/run tests.c.generate 7 > seven.c

Signed sums and products go through unsigned types, or have operands so small that nothing overflows; divisions and
shifts have guards; indices are taken modulo a length; loops count.
"""

from __future__ import annotations

import random
import sys
from dataclasses import dataclass, field

TYPES = {"u8": (8, False), "i8": (8, True), "u16": (16, False), "i16": (16, True), "u32": (32, False),
         "i32": (32, True), "u64": (64, False), "i64": (64, True)}
DEPTH = "depth"  # the type of a parameter that says how deep a function may call itself
HEAD = """#include <stdint.h>
#include <string.h>
#include "wavescalar.h"

typedef uint8_t u8; typedef int8_t i8; typedef uint16_t u16; typedef int16_t i16;
typedef uint32_t u32; typedef int32_t i32; typedef uint64_t u64; typedef int64_t i64;

static u64 hash = 14695981039346656037u;
static void note(u64 x) { hash = (hash ^ x) * 1099511628211u; }
"""


@dataclass
class Scope:
    """What can be named: scalars with their types, arrays with element types and lengths, and how deep a loop is."""

    scalars: dict[str, str] = field(default_factory=dict)
    fixed: dict[str, str] = field(default_factory=dict)  # loop counters, which no statement changes
    arrays: dict[str, tuple[str, int]] = field(default_factory=dict)
    structs: dict[str, tuple[dict[str, str], int]] = field(default_factory=dict)
    pointers: dict[str, tuple[str, int]] = field(default_factory=dict)
    loops: int = 0

    def inner(self) -> Scope:
        """A scope inside."""
        return Scope(dict(self.scalars), dict(self.fixed), dict(self.arrays), dict(self.structs), dict(self.pointers),
                     self.loops)


class Program:
    """A program in the making; `str` is its text."""

    def __init__(self, seed: int) -> None:
        self.random = random.Random(seed)
        self.count = self.calls = 0
        self.lines: list[str] = []
        self.functions: dict[str, tuple[str, list[str]]] = {}
        self.root = Scope()
        self.work = 1  # how often the statement at hand is executed, about
        self._globals()
        for _ in range(self.random.randrange(3)):
            self._function()
        self._main()

    def __str__(self) -> str:
        return HEAD + "\n".join(self.lines) + "\n"

    def name(self, stem: str) -> str:
        self.count += 1
        return f"{stem}{self.count}"

    def type(self) -> str:
        return self.random.choice(list(TYPES))

    def number(self, kind: str) -> str:
        width, signed = TYPES[kind]
        pick = self.random.random()
        if pick < 0.5:
            value = self.random.randrange(-4 if signed else 0, 20)
        elif pick < 0.8:
            value = self.random.getrandbits(width)
        else:
            value = self.random.choice([1 << width - 1, (1 << width - 1) - 1, (1 << width) - 1, 0])
        bits = value % (1 << width)
        return f"({kind}){bits}u" if width < 64 else f"({kind}){bits}ull"

    # Globals and functions.

    def _globals(self) -> None:
        for _ in range(self.random.randrange(1, 4)):
            name, kind = self.name("g"), self.type()
            self.root.scalars[name] = kind
            self.lines.append(f"static {kind} {name} = {self.number(kind)};")
        for _ in range(self.random.randrange(1, 4)):
            name, kind, length = self.name("a"), self.type(), self.random.choice([3, 4, 8, 13, 16])
            self.root.arrays[name] = kind, length
            shown = ", ".join(self.number(kind) for _ in range(self.random.randrange(1, length + 1)))
            self.lines.append(f"static {kind} {name}[{length}] = {{{shown}}};")
        if self.random.random() < 0.6:
            name, length = self.name("s"), self.random.choice([2, 4, 5])
            fields = {f"f{k}": self.type() for k in range(self.random.randrange(2, 5))}
            self.root.structs[name] = fields, length
            body = " ".join(f"{kind} {own};" for own, kind in fields.items())
            first = ", ".join(self.number(kind) for kind in fields.values())
            self.lines.append(f"static struct {{ {body} }} {name}[{length}] = {{{{{first}}}}};")

    def _function(self) -> None:
        name, kind = self.name("f"), self.type()
        params = [self.type() for _ in range(self.random.randrange(1, 4))]
        scope = self.root.inner()
        names = [self.name("p") for _ in params]
        scope.scalars.update(zip(names, params))
        given = ", ".join(f"{own} {param}" for own, param in zip(params, names))
        if self.random.random() < 0.4:
            self._recursive(name, kind, scope, params, given)
            return
        self.lines.append(f"static {kind} {name}({given}) {{")
        self.work = 40
        self._block(scope, 1, self.random.randrange(1, 4), True)
        self.lines += [f"  return {self.expression(scope, kind, 2)};", "}"]
        self.functions[name] = kind, params

    def _recursive(self, name: str, kind: str, scope: Scope, params: list[str], given: str) -> None:
        """A function that calls itself up to twice, as deep as its first argument says, which is below 4."""
        depth = self.name("d")
        scope.fixed[depth] = "u8"
        self.lines.append(f"static {kind} {name}(u8 {depth}, {given}) {{")
        self.work = 150
        self._block(scope, 1, self.random.randrange(1, 3), True)
        for word in self.random.choice([["if"], ["if", "if"], ["if"], ["for (int k = 0; k < 2; k++) if"]]):
            self.lines.append(f"  {word} ({depth}) {{")
            inner = scope.inner()
            self._block(inner, 2, self.random.randrange(2), True)
            place, own = self.place(inner)
            args = ", ".join(self.expression(inner, param, 1) for param in params)
            called = f"{name}((u8)({depth} - 1), {args})"
            self.lines.append(f"    {place} = ({own})({called} ^ {self.expression(inner, own, 1)});")
            self._block(inner, 2, self.random.randrange(2), True)
            self.lines.append("  }")
        self.lines += [f"  return {self.expression(scope, kind, 2)};", "}"]
        self.functions[name] = kind, [DEPTH, *params]

    def _main(self) -> None:
        self.lines.append("int main(void) {")
        self.work = 1
        scope = self.root.inner()
        for _ in range(self.random.randrange(1, 4)):
            name, kind = self.name("x"), self.type()
            scope.scalars[name] = kind
            self.lines.append(f"  {kind} {name} = ({kind})ws_read();")
        if self.random.random() < 0.7:
            name, kind, length = self.name("l"), self.type(), self.random.choice([4, 7, 8])
            scope.arrays[name] = kind, length
            self.lines.append(f"  {kind} {name}[{length}] = {{{self.number(kind)}}};")
        self._block(scope, 1, self.random.randrange(3, 9), False)
        for name in scope.scalars:
            self.lines.append(f"  note((u64){name});")
        for name, (_, length) in scope.arrays.items():
            self.lines.append(f"  for (int k = 0; k < {length}; k++) note((u64){name}[k]);")
        for name, (fields, length) in scope.structs.items():
            for own in fields:
                self.lines.append(f"  for (int k = 0; k < {length}; k++) note((u64){name}[k].{own});")
        self.lines += ["  ws_print(hash);", "  return 0;", "}"]

    # Statements.

    def _block(self, scope: Scope, depth: int, count: int, in_function: bool) -> None:
        for _ in range(count):
            self._statement(scope, depth, in_function)

    def _statement(self, scope: Scope, depth: int, in_function: bool) -> None:
        pad = "  " * depth
        pick = self.random.random()
        if pick < 0.30:
            place, kind = self.place(scope)
            self.lines.append(f"{pad}{place} = {self.expression(scope, kind, 2)};")
        elif pick < 0.40:
            place, kind = self.place(scope)
            op = self.random.choice(["^", "|", "&"] if TYPES[kind][1] else ["+", "-", "*", "^", "|", "&"])
            self.lines.append(f"{pad}{place} {op}= {self.expression(scope, kind, 2)};")
        elif pick < 0.46:
            name, kind = self.name("v"), self.type()
            self.lines.append(f"{pad}{kind} {name} = {self.value(scope, kind)};")
            scope.scalars[name] = kind
        elif pick < 0.60 and depth < 4:
            self.lines.append(f"{pad}if ({self.condition(scope)}) {{")
            self._block(scope.inner(), depth + 1, self.random.randrange(1, 3), in_function)
            if self.random.random() < 0.5:
                self.lines.append(f"{pad}}} else {{")
                self._block(scope.inner(), depth + 1, self.random.randrange(1, 3), in_function)
            self.lines.append(f"{pad}}}")
        elif pick < 0.80 and depth < 4 and self.work < 200:
            self._loop(scope, depth, in_function)
        elif pick < 0.85 and depth < 4:
            self._switch(scope, depth, in_function)
        elif pick < 0.90:
            self._pointer(scope, depth)
        elif pick < 0.93:
            self._move(scope, depth)
        elif pick < 0.95 and scope.loops:
            word = self.random.choice(["break", "continue"])
            self.lines.append(f"{pad}if ({self.condition(scope)}) {word};")
        elif pick < 0.97 and not in_function:
            self.lines.append(f"{pad}ws_print((u64){self.expression(scope, self.type(), 2)});")
        else:
            self.lines.append(f"{pad}note((u64){self.expression(scope, self.type(), 2)});")

    def _loop(self, scope: Scope, depth: int, in_function: bool) -> None:
        pad, name = "  " * depth, self.name("n")
        kind, turns = self.random.choice(["int", "u32", "u8", "u64", "i16"]), self.random.randrange(1, 9)
        step = self.random.choice([1, 1, 1, 2, 3])
        head = self.random.choice([
            f"for ({kind} {name} = 0; {name} < {turns}; {name} += {step})",
            f"for ({kind} {name} = {turns}; {name} > 0; {name}--)",
            f"for ({kind} {name} = ({kind})({self.expression(scope, 'u8', 1)} & 7); {name} < {turns}; {name}++)",
        ])
        inner = scope.inner()
        inner.loops += 1
        inner.fixed[name] = {"int": "i32"}.get(kind, kind)
        self.work *= turns
        self.lines.append(f"{pad}{head} {{")
        self._block(inner, depth + 1, self.random.randrange(1, 4), in_function)
        self.lines.append(f"{pad}}}")
        self.work //= turns

    def _switch(self, scope: Scope, depth: int, in_function: bool) -> None:
        pad = "  " * depth
        cases = self.random.sample(range(10), self.random.randrange(2, 6))
        self.lines.append(f"{pad}switch ((int)({self.expression(scope, 'u8', 2)} % 10)) {{")
        for case in cases:
            self.lines.append(f"{pad}case {case}: {{")
            inner = scope.inner()
            inner.loops = 0  # a break would be the switch's
            self._block(inner, depth + 1, 1, in_function)
            self.lines.append(f"{pad}}} {self.random.choice(['break;', 'break;', '/* falls through */'])}")
        self.lines.append(f"{pad}default: note(3);")
        self.lines.append(f"{pad}}}")

    def _pointer(self, scope: Scope, depth: int) -> None:
        """A pointer to an element, or to one of two arrays of a type, through which a loop walks."""
        pad, name = "  " * depth, self.name("q")
        array = self.random.choice(list(scope.arrays))
        kind, length = scope.arrays[array]
        others = [own for own, what in scope.arrays.items() if what[0] == kind and own != array]
        base = array
        if others:
            other = self.random.choice(others)
            base = f"({self.condition(scope)} ? {array} : {other})"
            length = min(length, scope.arrays[other][1])
        turns = self.random.randrange(1, length + 1)
        self.lines.append(f"{pad}{{ {kind} *{name} = {base}; {kind} *{name}e = {name} + {turns};")
        inner = scope.inner()
        value = self.expression(inner, kind, 2)
        self.lines.append(f"{pad}  while ({name} != {name}e) {{ *{name} = ({kind})(*{name} ^ {value}); {name}++; }} }}")

    def _move(self, scope: Scope, depth: int) -> None:
        """A memcpy, memmove or memset of elements of an array."""
        pad, array = "  " * depth, self.random.choice(list(scope.arrays))
        kind, length = scope.arrays[array]
        count = self.random.randrange(1, length)
        how_many = f"{count} * sizeof({kind})" if self.random.random() < 0.6 else (
            f"({self.expression(scope, 'u8', 1)} % {count + 1}) * sizeof({kind})")
        same = [own for own, what in scope.arrays.items() if what == (kind, length) and own != array]
        pick = self.random.random()
        if pick < 0.4:
            self.lines.append(f"{pad}memset({array}, {self.random.choice(['0', '0', '255', '90'])}, {how_many});")
        elif pick < 0.6 and same:
            self.lines.append(f"{pad}memcpy({array}, {self.random.choice(same)}, {how_many});")
        else:
            one, other = self.random.choice([(0, length - count), (length - count, 0)])
            self.lines.append(f"{pad}memmove({array} + {one}, {array} + {other}, {how_many});")

    # Expressions.

    def place(self, scope: Scope) -> tuple[str, str]:
        """What can be assigned to, and its type."""
        pick = self.random.random()
        if pick < 0.4 and scope.arrays:
            name = self.random.choice(list(scope.arrays))
            kind, length = scope.arrays[name]
            return f"{name}[{self.index(scope, length)}]", kind
        if pick < 0.55 and scope.structs:
            name = self.random.choice(list(scope.structs))
            fields, length = scope.structs[name]
            own = self.random.choice(list(fields))
            return f"{name}[{self.index(scope, length)}].{own}", fields[own]
        name = self.random.choice(list(scope.scalars))
        return name, scope.scalars[name]

    def index(self, scope: Scope, length: int) -> str:
        return f"(({self.expression(scope, self.random.choice(['u8', 'u16', 'u32', 'u64']), 1)}) % {length}u)"

    def atom(self, scope: Scope) -> tuple[str, str]:
        pick = self.random.random()
        if pick < 0.25:
            kind = self.type()
            return self.number(kind), kind
        if pick < 0.45 and scope.fixed:
            name = self.random.choice(list(scope.fixed))
            return name, scope.fixed[name]
        return self.place(scope)

    def expression(self, scope: Scope, kind: str, depth: int) -> str:
        """An expression of a type."""
        width, signed = TYPES[kind]
        pick = self.random.random()
        if depth <= 0 or pick < 0.15:
            text, own = self.atom(scope)
            return text if own == kind else f"({kind})({text})"
        one = self.expression(scope, kind, depth - 1)
        other = self.expression(scope, kind, depth - 1)
        free = f"u{max(width, 32)}"
        if pick < 0.40:
            op = self.random.choice(["+", "-", "*", "^", "&", "|"])
            return f"({kind})(({free}){one} {op} ({free}){other})"
        if pick < 0.48:
            op = self.random.choice(["+", "-", "*"])
            return f"({kind})((int)({one} & 1023) {op} (int)({other} & 511))"
        if pick < 0.58:
            op, most = self.random.choice("/%"), f"({kind})-1"
            guard = f"{other} == 0 || {other} == {most}" if signed else f"{other} == 0"
            return f"({kind})(({guard}) ? {one} : {one} {op} {other})"
        if pick < 0.70:
            distance = f"({self.expression(scope, 'u8', depth - 2)} & {width - 1})"
            if self.random.random() < 0.5:
                return f"({kind})(({free}){one} << {distance})"
            return f"({kind})({one} >> {distance})"
        if pick < 0.78:
            return f"(({self.condition(scope, depth - 1)}) ? {one} : {other})"
        if pick < 0.84:
            between = self.type()
            return f"({kind})({between})({self.expression(scope, between, depth - 1)})"
        if pick < 0.88:
            by = self.random.randrange(1, max(width, 32))
            return f"({kind})((({free}){one} << {by}) | (({free}){one} >> {max(width, 32) - by}))"
        if pick < 0.92:
            call = self.random.choice(["__builtin_popcountll((u64){})", "__builtin_bswap32((u32){})",
                                       "__builtin_ctzll((u64){} | 1)", "__builtin_clzll((u64){} | 1)",
                                       "__builtin_bswap64((u64){})", "(~{})"])
            return f"({kind}){call.format(one)}"
        return f"({kind})({self.condition(scope, depth - 1)})"

    def value(self, scope: Scope, kind: str) -> str:
        """A call where there is a function, and calls aren't too many; else an expression."""
        if not self.functions or self.calls > 5 or self.random.random() < 0.3:
            return self.expression(scope, kind, 2)
        self.calls += 1
        name = self.random.choice(list(self.functions))
        given = ", ".join(f"(u8)({self.expression(scope, 'u8', 1)} & 3)" if param == DEPTH else
                          self.expression(scope, param, 1) for param in self.functions[name][1])
        return f"({kind}){name}({given})"

    def condition(self, scope: Scope, depth: int = 1) -> str:
        kind = self.type()
        op = self.random.choice(["<", "<=", ">", ">=", "==", "!="])
        text = f"{self.expression(scope, kind, depth)} {op} {self.expression(scope, kind, depth)}"
        if depth > 0 and self.random.random() < 0.2:
            return f"({text}) {self.random.choice(['&&', '||'])} ({self.condition(scope, depth - 1)})"
        return text


if __name__ == "__main__":
    print(Program(int(sys.argv[1])), end="")
