"""Makes drafts: assemblies of waves with branches, joins, loops and sends, whose shape and tokens are right.

    python/run tests.diagnose.drafts 7                   the draft number 7, with few notes that are right
    python/run tests.diagnose.drafts --waves 20000 7     one of 20,000 waves, each of some 15 instructions
    python/run tests.diagnose.drafts --linked 7          a sound image: its paths can be linked as they are, and its notes say so
    python/run tests.diagnose.drafts --broken 7          a sound image with one word or line changed

A draft of a number is always the same. Each wave begins with its advances, branches and joins inside, sometimes with
no block of its own on one side, and ends with a jump, with a branch out of it or with a send.
"""

import argparse
import random
import sys
from typing import Optional

from wavescalar.isa import ALU

MEMORY = {"load", "store", "in", "out", "nop", "halt"}
WRITES = MEMORY - {"load", "nop"}
ROOM = 8  # destinations in a list
DEEP = 2  # branches inside of one another


class Node:
    """An instruction: its lists have nodes and ports; a note has texts and the sequence number."""

    def __init__(self, op: str, lists: int = 1, arg: Optional[int] = None) -> None:
        self.op, self.arg, self.number = op, arg, 0
        self.note = ("?", 0, "?", 0)
        self.lists: list[list[tuple["Node", int]]] = [[] for _ in range(lists)]


Value = list[tuple[Node, int]]
Values = dict[str, Value]


class Block:
    """A block: its wave, counted from 0, its nodes, its exit's word, its targets and the node that chooses."""

    def __init__(self, wave: int) -> None:
        self.wave, self.number = wave, 0
        self.nodes: list[Node] = []
        self.kind, self.chosen = "stop", Node("halt")
        self.targets: list["Block"] = []


class Draft:
    """A draft of so many waves; with `linked` its paths can be linked as they are, and it has notes."""

    def __init__(self, number: int, waves: int, linked: bool = False) -> None:
        self.rng, self.count = random.Random(number), waves
        names = [f"v{k}" for k in range(self.rng.randint(1, 3))]
        self.heads = [Block(w) for w in range(waves)]
        self.padded = [w == 0 or self.rng.random() < 0.3 for w in range(waves)]
        self.fronts: list[dict[str, Node]] = []
        for w in range(waves):
            more = sorted(self.rng.sample(names, self.rng.randint(0, len(names)))) if w else []
            self.fronts.append({name: Node("advance") for name in ["pulse", *more]})
        self.starts = set(self.heads)
        self.blocks: list[Block] = []
        for w in range(waves):
            done = self.wave(w)
            while linked and not done:
                done = self.wave(w)
        nodes = [node for block in self.blocks for node in block.nodes]
        for at, node in enumerate(nodes, 1):
            node.number = at
        for at, block in enumerate(self.blocks, 1):
            block.number = at

    def wave(self, w: int) -> bool:
        """Makes a wave, in the place of one that was made before; whether its paths can be linked."""
        while self.blocks and self.blocks[-1].wave == w:
            self.blocks.pop()
        head, first = self.heads[w], len(self.blocks)
        self.blocks.append(head)
        head.nodes, head.targets = [*self.fronts[w].values()], []
        for node in head.nodes:
            node.lists = [[]]
        values = {name: node.lists[0] for name, node in self.fronts[w].items()}
        self.end(self.body(head, values, DEEP), values)
        return self.notes(self.blocks[first:])

    def begin(self, wave: int) -> Block:
        self.blocks.append(Block(wave))
        return self.blocks[-1]

    def add(self, block: Block, node: Node, given: list[Value]) -> Node:
        block.nodes.append(node)
        for port, value in enumerate(given):
            value.append((node, port))
        return node

    def pick(self, values: Values) -> Value:
        return values[self.rng.choice(list(values))]

    def spread(self, block: Block, values: Values) -> None:
        """Puts a merge behind each value whose list is long."""
        for name, value in values.items():
            if len(value) > ROOM - 4:
                values[name] = self.add(block, Node("merge"), [value]).lists[0]

    def body(self, block: Block, values: Values, deep: int) -> Block:
        """Statements and branches from this block on; the block where they end."""
        for _ in range(self.rng.randint(1, 3)):
            for _ in range(self.rng.choice([0, 0, 1, 2, 3])):
                self.statement(block, values)
            if deep and self.rng.random() < 0.4:
                block = self.branch(block, values, deep - 1)
        return block

    def statement(self, block: Block, values: Values) -> None:
        self.spread(block, values)
        rng, one, two = self.rng, self.pick(values), self.pick(values)
        kind = rng.choice(["alu", "alu", "const", "phi", "load", "store", "in", "out", "nop"])
        if kind in ("store", "out", "nop"):
            self.add(block, Node(kind, 0, 1 if kind == "store" else None), [one, two] if kind == "store" else [one])
            return
        op = rng.choice(ALU) if kind == "alu" else kind
        arg = {"const": rng.randint(0, 9), "load": 1}.get(kind)
        given = {"alu": [one, two], "phi": [one, two, self.pick(values)]}.get(kind, [one])
        values[f"t{rng.randint(0, 2)}"] = self.add(block, Node(op, 1, arg), given).lists[0]

    def steers(self, block: Block, values: Values, names: list[str]) -> tuple[Node, Values, Values]:
        """Steers of these values, which a branch needs: what chooses, and the values behind each edge."""
        self.spread(block, values)
        chosen = self.add(block, Node("merge"), [self.pick(values)])
        port, yes, no = chosen.lists[0], {}, {}
        for name in names:
            if len(port) == ROOM - 1:
                port = self.add(block, Node("merge"), [port]).lists[0]
            steer = self.add(block, Node("steer", 2), [values[name]])
            port.append((steer, 1))
            yes[name], no[name] = steer.lists
        return chosen, yes, no

    def branch(self, block: Block, values: Values, deep: int) -> Block:
        """A branch and its join."""
        rng = self.rng
        names = [name for name in values if name == "pulse" or rng.random() < 0.7]
        block.kind = "if"
        block.chosen, yes, no = self.steers(block, values, names)
        ends: list[Optional[Block]] = []
        straight = rng.choice([0, 1]) if rng.random() < 0.25 else None
        for place, side in enumerate((yes, no)):
            if place == straight:
                ends.append(None)
                continue
            arm = self.begin(block.wave)
            block.targets.append(arm)
            ends.append(self.body(arm, side, deep) if rng.random() < 0.8 else arm)
        join = self.begin(block.wave)
        if straight is not None:
            block.targets.insert(straight, join)
        for end in ends:
            if end:
                end.kind, end.targets = "go", [join]
        for name in names:
            both = self.add(join, Node("merge"), [])
            for side in (yes, no):
                side[name].append((both, 0))
            values[name] = both.lists[0]
        return join

    def end(self, block: Block, values: Values) -> None:
        """The exit of a wave that ends in this block."""
        rng, wave = self.rng, block.wave
        self.spread(block, values)
        if wave == self.count - 1:
            self.add(block, Node("halt", 0), [values["pulse"]])
            block.kind = "stop"
            return
        goals = [wave + 1]
        if rng.random() < 0.6:
            goals.append(rng.randint(max(1, wave - 3), min(self.count - 1, wave + 3)) if wave else 1)
        rng.shuffle(goals)
        block.targets = [self.heads[goal] for goal in goals]
        wide = {len(self.fronts[goal]) for goal in goals}
        if all(self.padded[goal] for goal in goals) and len(wide) == 1 and rng.random() < 0.6:
            block.kind, block.chosen = "send", self.add(block, Node("const", 1, rng.randint(0, 3)), [values["pulse"]])
            for pad in range(max(wide)):
                self.spread(block, values)
                self.add(block, Node("send", 0, pad), [block.chosen.lists[0], self.pick(values)])
        elif len(goals) == 1:
            block.kind = "go"
            for front in self.fronts[goals[0]].values():
                self.spread(block, values)
                self.pick(values).append((front, 0))
        else:
            self.leave(block, values, goals)

    def leave(self, block: Block, values: Values, goals: list[int]) -> None:
        """A branch out of the wave, sometimes by an empty block on each edge."""
        names = sorted({name for goal in goals for name in self.fronts[goal]})
        for name in names:
            values.setdefault(name, self.add(block, Node("const", 1, 1), [values["pulse"]]).lists[0])
            self.spread(block, values)
        block.kind = "if"
        block.chosen, *sides = self.steers(block, values, names)
        for side, goal in zip(sides, goals):
            for name, front in self.fronts[goal].items():
                side[name].append((front, 0))
        if self.rng.random() < 0.6:
            for place, head in enumerate(block.targets):
                arm = self.begin(block.wave)
                arm.kind, arm.targets, block.targets[place] = "go", [head], arm

    def notes(self, blocks: list[Block]) -> bool:
        """Gives the operations of a wave their notes, if no path needs a no-op more."""
        last: dict[Block, set[Optional[Node]]] = {blocks[0]: {None}}
        top: dict[Block, int] = {blocks[0]: 0}
        before: dict[Node, set[Optional[Node]]] = {}
        behind: dict[Optional[Node], set[Optional[Node]]] = {}
        seq: dict[Optional[Node], int] = {}
        ripple: dict[Node, int] = {}
        for block in blocks:
            here, high = last.get(block, set()), top.get(block, 0)
            for node in block.nodes:
                if node.op not in MEMORY:
                    continue
                seq[node] = len(seq) + 1
                before[node] = here
                for old in here:
                    behind.setdefault(old, set()).add(node)
                high = seq[node] if node.op in WRITES else high
                ripple[node], here = high, {node}
            for target in block.targets or [blocks[0]]:
                if target in self.starts:
                    if None in here:
                        return False
                    for old in here:
                        behind.setdefault(old, set()).add(None)
                else:
                    last[target] = last.get(target, set()) | here
                    top[target] = max(top.get(target, 0), high)
        return linked(before, behind, seq, ripple)

    def lines(self) -> list[str]:
        """The text's lines."""
        large = self.count > 65536 or len(self.blocks) > 65536
        made = [f"wavescalar {2 if large else 1}", "array a 10"]
        wave = -1
        for block in self.blocks:
            if block.wave != wave:
                wave = block.wave
                made.append(f"wave {wave + 1}")
            made.append(f"block {block.number}")
            if block in self.starts and self.padded[wave]:
                fronts = self.fronts[wave].values()
                made += [f"pad {pad} {node.number}.0" for pad, node in enumerate(fronts)]
            made += map(line_of, block.nodes)
            words = [block.kind, *([str(block.chosen.number)] if block.kind in ("if", "send") else [])]
            made.append(" ".join([*words, *(str(target.number) for target in block.targets)]))
        return [*made, "end"]


def linked(before: dict[Node, set[Optional[Node]]], behind: dict[Optional[Node], set[Optional[Node]]],
           seq: dict[Optional[Node], int], ripple: dict[Node, int]) -> bool:
    """Writes the notes of operations, by those before and behind each on some path: None is the wave's end."""
    def link(ways: set[Optional[Node]]) -> str:
        if len(ways) != 1:
            return "?"
        one = next(iter(ways))
        return "." if one is None else str(seq[one])

    for node, ways in before.items():
        after = behind.get(node, set())
        if None in after and len(after) > 1 or None in ways and len(ways) > 1:
            return False
        if any(old and len(ways) > 1 and len(behind[old]) > 1 for old in ways):
            return False
        node.note = (link(ways), seq[node], link(after), ripple[node])
    return True


def line_of(node: Node) -> str:
    """The line of an instruction."""
    text = f"{node.number}: {node.op}" + ("" if node.arg is None else f" {node.arg}")
    if node.op in MEMORY:
        pred, seq, succ, ripple = node.note
        text += f" <{pred}, {seq}, {succ}>.{ripple}"
    if not node.lists:
        return text
    return text + " ->" + " |".join("".join(f" {to.number}.{port}" for to, port in dests) for dests in node.lists)


def broken(lines: list[str], rng: random.Random) -> list[str]:
    """The lines with something changed: a number, a word, a destination, or a line."""
    lines, at = [*lines], rng.randrange(1, len(lines))
    words = lines[at].split(" ")
    how = rng.randrange(7)
    if how == 0:
        del lines[at]
    elif how == 1:
        lines.insert(at, lines[rng.randrange(1, len(lines))])
    elif how == 2:
        other = rng.randrange(1, len(lines))
        lines[at], lines[other] = lines[other], lines[at]
    elif how == 3:
        words[rng.randrange(len(words))] = rng.choice(["steer", "merge", "nop", "7", "->", "|", "go", "1.0", "2.1", ""])
        lines[at] = " ".join(words)
    elif how == 4:
        del words[rng.randrange(len(words))]
        lines[at] = " ".join(words)
    else:
        digits = [k for k, c in enumerate(lines[at]) if c.isdigit()] or [0]
        k = rng.choice(digits)
        lines[at] = lines[at][:k] + str(rng.randint(0, 9)) + lines[at][k + 1:]
    return lines


def main() -> int:
    ask = argparse.ArgumentParser(description=__doc__, formatter_class=argparse.RawDescriptionHelpFormatter)
    ask.add_argument("--waves", type=int, default=0, help="else 1 to 6")
    ask.add_argument("--linked", action="store_true")
    ask.add_argument("--broken", action="store_true")
    ask.add_argument("number", type=int)
    line = ask.parse_args()
    draft = Draft(line.number, line.waves or 1 + line.number % 6, line.linked or line.broken)
    lines = draft.lines()
    print("\n".join(broken(lines, draft.rng) if line.broken else lines))
    return 0


if __name__ == "__main__":
    sys.exit(main())
