"""The rules that a sound image keeps (docs/ASSEMBLY.md), and those of a draft that `wsl` takes, each breach
with its place and a mend. The rules are told here once more, not asked of the program.

    shape 1 to 7   what stands where, and what leads where
    port, pending  one token comes to each port on every path
    link, ripple   the notes of memory operations
    arm, trigger, full   what a draft needs besides, so that it can get notes
"""

from __future__ import annotations

from collections.abc import Callable, Iterable, Iterator
from functools import partial

from wavescalar.diagnose.draft_check import GIVES, Fit
from wavescalar.reader import MEMORY, Block, Finding, Instr, Note, Slot, Text

WRITES = MEMORY - {"load", "nop"}
WAYS = 6  # ways into a block with different ports waiting that are looked at
MOST = 48  # different last operations of the paths into a block that are looked at


def note_of(it: Instr) -> Note:
    """The note of a memory operation."""
    assert it.note
    return it.note


class Rules:
    """All breaches of an image whose lines could be read; blocks with a faulty line are left out."""

    def __init__(self, text: Text, draft: bool = False) -> None:
        self.text, self.draft = text, draft
        self.found: list[Finding] = []
        self.told: set[tuple[str, str, int]] = set()
        self.blocks, self.instrs = text.blocks, text.instrs
        self.first: dict[Block, bool] = {}
        for b in self.blocks:
            self.first[b] = b.number == 1 or self.blocks[b.number - 2].wave != b.wave
        for b in self.blocks:
            if not b.faulty and not self.shapely(b):
                self.shape(b)
        if text.whole and not self.found:
            if draft:
                Fit(self)
            self.slots()
            if not draft:
                self.links()

    def add(self, line: int, column: int, rule: str, message: str, mend: str, check: str, /, **about: int | str) -> None:
        if (rule, check, line) not in self.told:
            self.told.add((rule, check, line))
            self.found.append(Finding(line, column, rule, message, mend, check, about))

    def at_instr(self, it: Instr, rule: str, message: str, mend: str, check: str) -> None:
        about: dict[str, int | str] = {"instruction": it.number} | ({"name": it.name} if it.name else {})
        self.add(it.line, it.column, rule, message, mend, check, **about, block=it.block.number)

    def at_exit(self, b: Block, rule: str, message: str, mend: str, check: str) -> None:
        name: dict[str, int | str] = {"block_name": b.name} if b.name else {}
        self.add(*b.exit_at, rule, message, mend, check, **({"block": b.number} | name))

    # The seven rules on shape. Each names the block.

    def shapely(self, b: Block) -> bool:
        """Whether a block surely keeps all seven: a look at it that takes little time."""
        kind, targets, source, wave, front = b.kind, b.targets, b.source, b.wave, self.first[b]
        if any(not self.first[t] and (t.wave != wave or t.number <= b.number or kind == "send") for t in targets):
            return False
        if b.pads and not (front and all(d.op == "advance" and d.block is b for pad in b.pads.values() for d, _ in pad.slots)):
            return False
        if b.number == 1 and 0 not in b.pads:
            return False
        if kind in ("if", "send") and (not source or source.block is not b or source.op not in GIVES):
            return False
        if kind == "stop" and not (b.memory and b.memory[-1].op == "halt"):
            return False
        return self.listed(b) and self.ordered(b, kind, targets, source)

    def listed(self, b: Block) -> bool:
        """Whether all destinations stand behind, in the wave, or are advances."""
        wave = b.wave
        for it in b.instrs:
            number, (dests, others) = it.number, it.lists
            for d, _ in dests:
                if (d.number <= number or d.wave != wave) and d.op != "advance":
                    return False
            for d, _ in others:
                if (d.number <= number or d.wave != wave) and d.op != "advance":
                    return False
        return True

    def ordered(self, b: Block, kind: str, targets: list[Block], source: Instr | None) -> bool:
        """Whether advances stand in front of a first block, steers and sends hang on the exit, and a halt is the last."""
        fed, advances = None, 0
        for it in b.special:
            op = it.op
            if op == "advance":
                if not self.first[b] or b.instrs[advances] is not it:
                    return False
                advances += 1
                continue
            if op == "halt":
                if kind != "stop" or b.memory[-1] is not it:
                    return False
                continue
            fed = fed or self.fed(b, source) if source else set()
            if kind != ("if" if op == "steer" else "send") or it.ports[op == "steer"] not in fed:
                return False
            if op == "send" and any(it.arg not in t.pads for t in targets):
                return False
        return True

    def shape(self, b: Block) -> None:
        check = f"refused shape {b.number}"
        first = self.first[b]
        kind, targets, source = b.kind, b.targets, b.source
        if b.number == 1 and 0 not in b.pads:
            self.add(b.line, b.column, "shape 1", "block 1 has no pad 0, through which the start pulse comes",
                     "write `pad 0 I.0` with an advance I of block 1", check, block=1)
        for t in targets:
            if not self.first[t] and t.wave != b.wave:
                self.at_exit(b, "shape 2", f"the exit leads into the midst of wave {t.wave}, to block {t.called()}",
                             "lead to the wave's first block, or put `wave` before that block", check)
            elif not self.first[t] and t.number <= b.number:
                self.at_exit(b, "shape 2", f"the exit leads back to block {t.called()}, which is not the first of "
                             "a wave", "begin a wave at that block: a turn of a loop is a wave", check)
        behind = None
        for it in b.instrs:
            if it.op == "advance" and not first:
                self.at_instr(it, "shape 3", f"`advance` {it.called()} stands in block {b.called()}, which is not "
                              "the first of its wave", "write `merge`, or begin a wave here", check)
            elif it.op == "advance" and behind:
                self.at_instr(it, "shape 3", f"`advance` {it.called()} stands behind {behind.called()}",
                              "put all advances before the other instructions of the block", check)
            elif it.op != "advance":
                behind = behind or it
        if b.pads and not first:
            pad = next(iter(b.pads.values()))
            self.add(pad.line, pad.column, "shape 3", f"block {b.called()} has pads and is not the first of its wave",
                     "begin a wave here", check, block=b.number)
        fed = set()
        if kind in ("if", "send") and source:
            if source.block is not b:
                self.at_exit(b, "shape 4", f"instruction {source.called()} of the exit stands in block "
                             f"{source.block.called()}", "send its result to a `merge` of this block", check)
            elif source.op not in GIVES:
                self.at_exit(b, "shape 4", f"instruction {source.called()} of the exit is `{source.op}`, which has "
                             "no result to choose by", "send the value to a `merge`, and name that", check)
            else:
                fed = self.fed(b, source)
        for it in b.instrs:
            if it.op == "steer" and (kind != "if" or (it, 1) not in fed):
                wrong = "the exit is no `if`" if kind != "if" or not source else \
                    f"port 1 has no token from {source.called()}, which chooses at the exit"
                self.at_instr(it, "shape 5", f"`steer` {it.called()}: {wrong}",
                              f"send {source.name or source.number} to {it.name or it.number}.1" if kind == "if" and source
                              else "end the block with `if`", check)
            if it.op == "send":
                if kind != "send" or (it, 0) not in fed:
                    wrong = "the exit is no `send`" if kind != "send" or not source else \
                        f"port 0 has no token from {source.called()}, the address at the exit"
                    self.at_instr(it, "shape 5", f"`send` {it.called()}: {wrong}",
                                  f"send {source.name or source.number} to {it.name or it.number}.0"
                                  if kind == "send" and source else "end the block with `send`", check)
                for t in targets if kind == "send" else ():
                    if it.arg not in t.pads:
                        self.at_instr(it, "shape 5", f"`send` {it.called()}: landing {t.called()} has no pad "
                                      f"{it.arg}", f"write `pad {it.arg} ..` there", check)
        for t in targets if kind == "send" else ():
            if not self.first[t]:
                self.at_exit(b, "shape 5", f"landing {t.called()} is not the first block of a wave",
                             "begin a wave there", check)
        halts = [it for it in b.instrs if it.op == "halt"]
        if kind == "stop" and not halts:
            self.at_exit(b, "shape 6", f"block {b.called()} stops and has no `halt`",
                         "put `halt` behind its other memory operations", check)
        for it in halts:
            if kind != "stop":
                self.at_instr(it, "shape 6", f"`halt` {it.called()} stands in a block that does not stop",
                              "end the block with `stop`", check)
        for it in b.instrs:
            if halts and it.op in MEMORY and it.number > halts[0].number:
                self.at_instr(it, "shape 6", f"`{it.op}` {it.called()} stands behind `halt` {halts[0].called()}",
                              "`halt` is the last memory operation, and there is one", check)
            for k, (d, _) in enumerate([*it.lists[0], *it.lists[1]]):
                if d.op != "advance" and (d.number <= it.number or d.wave != b.wave):
                    wrong = "stands in another wave and is no advance" if d.wave != b.wave else \
                        "does not stand behind it"
                    self.add(it.line, self.text.column(it.line, k), "shape 7",
                             f"{it.called()} sends to {d.called()}, which {wrong}",
                             "values come into a wave through its advances" if d.wave != b.wave
                             else "a destination is a later instruction; into the next turn through an advance",
                             check, instruction=it.number, block=b.number,
                             **({"name": it.name} if it.name else {}))
        for number, pad in b.pads.items():
            for k, (d, _) in enumerate(pad.slots):
                if d.op != "advance" or d.block is not b:
                    self.add(pad.line, self.text.column(pad.line, k), "shape 7", f"pad {number} leads to {d.called()}, which is no advance "
                             f"of block {b.called()}", "a pad leads to advances of its own block", check,
                             block=b.number)

    def fed(self, b: Block, source: Instr) -> set[Slot]:
        """The ports to which a result comes, directly or through merges of the block."""
        seen: set[Slot] = set()
        todo = [source]
        while todo:
            for slot in todo.pop().lists[0]:
                if slot not in seen:
                    seen.add(slot)
                    d, port = slot
                    if d.op == "merge" and d.block is b and port == 0:
                        todo.append(d)
        return seen

    # Slots: which ports have a token that waits, from block to block.

    def edges(self, b: Block) -> Iterator[tuple[Block, list[Slot]]]:
        """The edges of a block: its target, and what opens on it."""
        for place, t in enumerate(b.targets):
            opens: list[Slot] = []
            for it in b.special:
                if it.op == "steer" and b.kind == "if":
                    opens += it.lists[place]
                elif it.op == "send" and it.arg in t.pads:
                    opens += t.pads[it.arg].slots
            yield t, opens

    def open(self, slots: set[Slot], dests: Iterable[Slot], where: Callable[[], str]) -> None:
        for slot in dests:
            if slot in slots:
                d, port = slot
                self.at_instr(d, "port", f"two tokens come to port {port} of {d.called()}: {where()}",
                              "one path alone may bring it", f"refused port {d.number} {port}")
            slots.add(slot)

    def advances(self, b: Block, slots: set[Slot], where: str) -> set[Slot]:
        """Into the first block of a wave come exactly its advances' tokens."""
        due = {it.ports[0] for it in b.special if it.op == "advance"}
        if slots == due:
            return due
        for it, port in sorted(slots - due, key=lambda s: (s[0].number, s[1])):
            self.at_instr(it, "port", f"a token waits at port {port} of {it.called()} where {where} a wave begins, "
                          f"at block {b.called()}", "take it away in its own wave, or give it on by an advance",
                          f"refused port {it.number} {port}")
        for it, port in sorted(due - slots, key=lambda s: (s[0].number, s[1])):
            self.at_instr(it, "port", f"no token comes to advance {it.called()} {where}",
                          "each way into the wave has to send to each of its advances",
                          f"refused port {it.number} {port}")
        return due

    def sent_twice(self, it: Instr) -> str:
        """How a second token comes."""
        return f"{it.called()} sends where one waits"

    def on_edge(self, b: Block, t: Block) -> str:
        """The same from block to block."""
        return f"on the edge from block {b.called()} to {t.called()}"

    def lacks(self, it: Instr, port: int, before: Block | None) -> None:
        by = f" on a path through block {before.called()}" if before else ""
        self.at_instr(it, "port", f"no token comes to port {port} of {it.called()} ({it.op}){by}",
                      f"name {it.name or it.number}.{port} in a list that every path passes",
                      f"refused port {it.number} {port}")

    def slots(self) -> None:
        start: set[Slot] = set()
        one = self.blocks[0]
        self.open(start, one.pads[0].slots if 0 in one.pads else [], lambda: "from the start pulse")
        first = frozenset(self.advances(one, start, "from the start"))
        come: dict[Block, list[tuple[Block | None, frozenset[Slot]]]] = {one: [(None, first)]}
        todo = [(one, *come[one][0])]
        while todo:
            b, before, waiting = todo.pop()
            slots = set(waiting)
            for it in b.instrs:
                for slot in it.ports:
                    if slot in slots:
                        slots.remove(slot)
                    else:
                        self.lacks(it, slot[1], before)
                if it.op in GIVES:
                    for slot in it.lists[0]:
                        if slot in slots:
                            self.open(slots, [slot], partial(self.sent_twice, it))
                        slots.add(slot)
            if b.kind == "stop":
                for it, port in sorted(slots, key=lambda s: (s[0].number, s[1])):
                    self.at_instr(it, "port", f"a token waits at port {port} of {it.called()} where block "
                                  f"{b.called()} stops", "no list may name it on this path",
                                  f"refused port {it.number} {port}")
                continue
            for t, opens in self.edges(b):
                after = set(slots)
                self.open(after, opens, partial(self.on_edge, b, t))
                if self.first[t]:
                    after = self.advances(t, after, f"on the edge from block {b.called()}")
                known = come.setdefault(t, [])
                if all(after != slots for _, slots in known) and len(known) < WAYS:
                    known.append((b, frozenset(after)))
                    todo.append((t, *known[-1]))
                for other, waits in known if not self.first[t] else ():
                    if waits == after or not other:
                        continue
                    low, high = sorted((b, other), key=lambda x: x.number)
                    apart = sorted(after ^ waits, key=lambda s: (s[0].number, s[1]))
                    names = ", ".join(f"{i.called()} port {p}" for i, p in apart[:4])
                    self.add(t.line, t.column, "pending", f"the ways into block {t.called()} from {low.called()} and "
                             f"{high.called()} leave tokens waiting at different ports: {names}",
                             "send on both ways, from each arm or by both lists of a steer",
                             f"refused pending {low.number} {high.number}", block=t.number)

    # Links and ripples, along the paths inside each wave.

    def links(self) -> None:
        last: dict[Block, set[Instr | None]] = {}
        writer: dict[Block, Instr | None] = {}
        on_path: dict[tuple[int, int], Instr] = {}
        for b in self.blocks:
            if self.first[b]:
                last[b], writer[b] = {None}, None
            if b not in last:
                continue
            before, top = last[b], writer[b]
            for it in b.memory:
                self.note(it, before, top)
                seq = note_of(it)[1]
                twin = on_path.setdefault((b.wave, seq), it)
                if twin is not it:
                    self.pair(twin, it, f"both have the sequence number {seq} in wave {b.wave}",
                              "number the operations of a wave from 1, each with its own number")
                if it.op in WRITES and (top is None or seq > note_of(top)[1]):
                    top = it
                before = {it}
            if b.kind == "stop" or any(self.first[t] for t in b.targets):
                for last_one in before:
                    self.ends(b, last_one)
            for t in b.targets:
                if not self.first[t]:
                    last[t] = set(list(last.get(t, set()) | before)[:MOST])
                    best = writer.get(t)
                    writer[t] = top if best is None or (top and note_of(top)[1] > note_of(best)[1]) else best

    def pair(self, j: Instr, k: Instr, message: str, mend: str) -> None:
        self.at_instr(k, "link", f"`{j.op}` {j.called()} and `{k.op}` {k.called()}: {message}", mend,
                      f"refused link {j.number} {k.number}")

    def note(self, k: Instr, before: set[Instr | None], top: Instr | None) -> None:
        pred, seq, _, ripple = note_of(k)
        if seq < 1:
            self.at_instr(k, "link", f"`{k.op}` {k.called()} has the sequence number 0", "count from 1",
                          f"refused link {k.number} {k.number}")
        for j in sorted(before, key=lambda i: i.number if i else 0):
            if j is None:
                if pred != ".":
                    self.at_instr(k, "link", f"`{k.op}` {k.called()} is the first of its wave on a path, and its "
                                  f"predecessor is {pred}", "write `.`; where another path has one before it, "
                                  "that path needs a no-op here", f"refused link 0 {k.number}")
                continue
            _, was, named, _ = note_of(j)
            if seq <= was:
                self.pair(j, k, f"the one after has {seq}, the one before {was}", "numbers rise along each path")
            elif named == "." or (named != "?" and named != seq):
                self.pair(j, k, f"the successor that {j.called()} names is {named}, and {seq} follows",
                          f"write {seq}, or `?` where it depends on the path")
            elif pred == "." or (pred != "?" and pred != was):
                self.pair(j, k, f"the predecessor that {k.called()} names is {pred}, and {was} stands before it",
                          f"write {was}, or `?` where it depends on the path")
            elif named == "?" and pred == "?":
                self.pair(j, k, "neither names the other", f"{j.called()} names {seq} as its successor or {k.called()}"
                          f" names {was}; where neither is so on every path, put a `nop` between")
        if k.op in WRITES and ripple != seq:
            self.at_instr(k, "ripple", f"`{k.op}` {k.called()} writes, and its ripple is {ripple}", f"write {seq}",
                          f"refused ripple {k.number} {k.number}")
        if k.op not in WRITES and top and ripple < note_of(top)[1]:
            self.at_instr(k, "ripple", f"the ripple of `{k.op}` {k.called()} is {ripple}, and `{top.op}` "
                          f"{top.called()} with number {note_of(top)[1]} may come before it",
                          f"write {note_of(top)[1]}", f"refused ripple {k.number} {top.number}")

    def ends(self, b: Block, it: Instr | None) -> None:
        if it is None:
            self.at_exit(b, "link", f"a path through wave {b.wave} that leaves it at block {b.called()} has no memory "
                         "operation", "put a `nop` on it", "refused link 0 0")
        elif note_of(it)[2] != ".":
            self.at_instr(it, "link", f"`{it.op}` {it.called()} is the last of its wave on a path, and its successor "
                          f"is {note_of(it)[2]}", "write `.`; where another path goes on, put a `nop` on this one",
                          f"refused link {it.number} 0")
