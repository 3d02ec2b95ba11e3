"""Three-address code: its statements, its basic blocks, and what is live at their heads.

A statement is its words: `x = y + z`, `x = y`, `x = a [ i ]`, `a [ i ] = x`, `x = read`, `print x`. A block
ends with one exit: `goto L`, `if c L M`, `halt`, `return x`, or a call, behind which another block begins. A
procedure doesn't call itself, and no variable is called `pulse` or `ra`.
"""

import re
from typing import Optional

OPS = {"+": "add", "-": "sub", "*": "mul", "/": "div", "%": "rem", "&": "and", "|": "or", "^": "xor",
       "<<": "shl", ">>": "shr", "==": "eq", "!=": "ne", "<": "lt", "<=": "le", ">": "gt", ">=": "ge"}
Words = list[str]


class Basic:
    """A basic block: its label, procedure, statements, exit. `given` are the operands of a call at its end,
    `pads` the variables that a send brings, None where jumps enter it, `live` what is live at its head."""

    def __init__(self, label: str, proc: str) -> None:
        self.label, self.proc = label, proc
        self.body: list[Words] = []
        self.exit: Words = []
        self.given: Words = []
        self.pads: Optional[Words] = None
        self.live: set[str] = set()

    def takes(self) -> Words:
        """What comes from the blocks before it, in the order of the pads where it has some."""
        return ["pulse", *(sorted(self.live) if self.pads is None else self.pads)]

    def leads(self) -> Words:
        """The labels that its exit names: those of a jump; the callee, and the block behind the call."""
        return {"goto": self.exit[1:], "if": self.exit[2:], "call": self.exit[1:]}.get(self.exit[0], [])


class Code:
    """The arrays with their lengths, and by their labels the blocks that main reaches, its first in front."""

    def __init__(self, text: str) -> None:
        self.arrays: dict[str, int] = {}
        self.params: dict[str, Words] = {}
        self.blocks: dict[str, Basic] = {}
        self.here = Basic("", "")
        for line in text.splitlines():
            words = re.findall(r"\w+|<<|>>|[=!<>]=|[^\s\w]", line.split("#")[0])
            if words:
                self.line(words)
        reached = ["main"]
        for label in reached:
            reached += [other for other in self.blocks[label].leads() if other not in reached]
        self.blocks = {label: self.blocks[label] for label in ["main", *self.blocks] if label in reached}
        while any([self.flows(block) for block in self.blocks.values()]):
            pass

    def begin(self, label: str, proc: str) -> Basic:
        self.blocks[label] = self.here = Basic(label, proc)
        return self.here

    def line(self, words: Words) -> None:
        here, proc = self.here, self.here.proc
        if words[0] == "array":
            self.arrays[words[1]] = int(words[2])
        elif words[0] == "proc":
            self.params[words[1]] = words[2:]
            self.begin(words[1], words[1]).pads = [] if words[1] == "main" else ["ra", *words[2:]]
        elif words[1:] == [":"]:
            here.exit = here.exit or ["goto", f"{proc}_{words[0]}"]
            self.begin(f"{proc}_{words[0]}", proc)
        elif words[0] in ("goto", "if"):
            at = 2 if words[0] == "if" else 1
            here.exit = [*words[:at], *(f"{proc}_{label}" for label in words[at:])]
        elif words[0] in ("return", "halt"):
            here.exit = words
        elif words[2:3] == ["call"]:
            after = f"{proc}_back{len(self.blocks)}"
            here.exit, here.given = ["call", words[3], after], words[4:]
            self.begin(after, proc).pads = [words[0]]
        else:
            here.body.append(words)

    def flows(self, block: Basic) -> bool:
        """Works out what is live at the head of a block; whether more is than was known."""
        kind, *rest = block.exit
        if kind == "call":
            after = self.blocks[rest[1]]
            live = (after.live - set(after.takes())) | variables(block.given)
        else:
            live = {"return": {"ra"} | variables(rest), "if": variables(rest[:1])}.get(kind, set())
            live = live.union(*(self.blocks[label].live for label in block.leads()))
        for words in reversed(block.body):
            live = (live - {words[0] if words[1] == "=" else ""}) | variables(reads(words))
        changed, block.live = live != block.live, live
        return changed


def reads(words: Words) -> Words:
    """The words of a statement whose values it reads."""
    if words[0] == "print":
        return words[1:]
    if words[1] == "[":
        return [words[2], words[5]]
    if words[3:4] == ["["]:
        return [words[4]]
    return [word for word in words[2:] if word not in OPS and word != "read"]


def variables(words: Words) -> set[str]:
    return {word for word in words if not word.isdigit()}
