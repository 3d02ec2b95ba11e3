"""Random programs with branches, loops and arrays: what an image made by the builder prints is what they mean."""

import random
import unittest

from tests.places import WSC, WSL, needs_linker

import wavescalar as ws

MASK = (1 << 64) - 1
CELLS = 4
Program = list[tuple]  # type: ignore[type-arg]


def made(r: random.Random, names: list[str], depth: int) -> Program:
    """Statements over these variables."""
    found: Program = []
    for _ in range(r.randint(2, 7)):
        x, y, z = (r.choice(names) for _ in range(3))
        kinds = ["add", "sub", "mul", "out", "store", "load", "in"] + (["if", "loop"] if depth else [])
        kind = r.choice(kinds)
        if kind in ("if", "loop"):
            found.append((kind, x, r.randint(1, 3), made(r, names, depth - 1), made(r, names, depth - 1)))
        else:
            found.append((kind, x, y, z))
    return found


def loops(program: Program) -> bool:
    """Whether a loop stands in it."""
    return any(kind == "loop" or kind == "if" and (loops(rest[1]) or loops(rest[2])) for kind, _, *rest in program)


class World:
    """The meaning of a program."""

    def __init__(self, names: list[str], given: list[int]) -> None:
        self.value = {name: k for k, name in enumerate(names)}
        self.given, self.cells, self.printed = list(given), [0] * CELLS, list[int]()

    def run(self, program: Program) -> None:
        v = self.value
        for kind, x, *rest in program:
            if kind == "if":
                self.run(rest[1] if v[x] else rest[2])
            elif kind == "loop":
                for _ in range(rest[0]):
                    self.run(rest[1])
            elif kind == "out":
                self.printed.append(v[x])
            elif kind == "in":
                v[x] = self.given.pop(0) if self.given else 0
            elif kind == "store":
                self.cells[v[x] % CELLS] = v[rest[0]]
            elif kind == "load":
                v[x] = self.cells[v[rest[0]] % CELLS]
            else:
                left, right = (v[name] for name in rest)
                v[x] = {"add": left + right, "sub": left - right, "mul": left * right}[kind] & MASK


class Compiler:
    """Each loop's body begins a wave, and so does what comes behind it."""

    def __init__(self, names: list[str]) -> None:
        self.b = ws.Builder()
        self.a, self.count = self.b.array("a", CELLS), 0
        self.block = self.b.wave().block("start")
        self.block.pulse = self.block.arrive(0, "pulse")
        self.v: dict[str, ws.Value] = {name: self.block.const(k) for k, name in enumerate(names)}

    def image(self, program: Program) -> ws.Image:
        self.run(program)
        self.block.stop()
        return self.b.image()

    def run(self, program: Program) -> None:
        for kind, x, *rest in program:
            block, v = self.block, self.v
            if kind == "if":
                self.choose(x, rest[1], rest[2])
            elif kind == "loop":
                self.loop(rest[0], rest[1])
            elif kind == "out":
                block.out(v[x])
            elif kind == "in":
                v[x] = block.in_()
            elif kind == "store":
                block.store(self.a, block.rem(v[x], CELLS), v[rest[0]])
            elif kind == "load":
                v[x] = block.load(self.a, block.rem(v[rest[0]], CELLS))
            else:
                v[x] = block.alu(kind, v[rest[0]], v[rest[1]])

    def steered(self, test: ws.Value) -> tuple[ws.Steer, dict[str, ws.Steer]]:
        block = self.block
        return block.steer(block.pulse, test), {name: block.steer(value, test) for name, value in self.v.items()}

    def choose(self, x: str, one: Program, other: Program) -> None:
        test = self.block.merge(self.v[x])
        pulse, steers = self.steered(test)
        arms, ends = self.block.branch(test), []
        # arms without loops stay in their wave; else each is a wave, and so is the join
        flat = not loops(one) and not loops(other)
        for k, (arm, program) in enumerate(zip(arms, (one, other), strict=True)):
            self.block = arm
            arm.pulse = (pulse.yes, pulse.no)[k]
            self.v = {name: (steer.yes, steer.no)[k] for name, steer in steers.items()}
            if not flat:
                self.enter(self.b.wave().block())
            self.run(program)
            ends.append((self.block, self.v))
        join = (self.block.wave if flat else self.b.wave()).block()
        joined = join.merge if flat else join.advance
        join.pulse = joined(*(block.pulse for block, _ in ends))
        self.v = {name: joined(*(v[name] for _, v in ends)) for name in steers}
        for block, _ in ends:
            block.go(join)
        self.block = join

    def enter(self, block: ws.BlockBuilder) -> None:
        """Goes on in a new wave, with all variables."""
        self.block.go(block)
        block.pulse = block.advance(self.block.pulse)
        self.v = {name: block.advance(value) for name, value in self.v.items()}
        self.block = block

    def loop(self, turns: int, body: Program) -> None:
        self.v["turn"] = self.block.const(turns)
        self.count += 1
        top = self.b.wave().block(f"loop{self.count}")
        outer = list(self.v)
        self.enter(top)
        heads, head, left = dict(self.v), top.pulse, self.v.pop("turn")
        self.v[f"left{self.count}"] = left
        own = f"left{self.count}"
        self.run(body)
        block = self.block
        after = block.sub(self.v[own], 1)
        self.v[own] = after
        test = block.merge(after)
        pulse, steers = self.steered(test)
        yes, no = block.branch(test)
        yes.go(top)
        pulse.yes.to(head)  # type: ignore[arg-type]
        for name in outer:
            steers[own if name == "turn" else name].yes.to(heads[name])  # type: ignore[arg-type]
        self.block, no.pulse = no, pulse.no
        self.v = {name: steer.no for name, steer in steers.items() if name != own}
        self.enter(self.b.wave().block())


class Programs(unittest.TestCase):
    @needs_linker
    def test_random_programs(self) -> None:
        count = firings = instrs = 0
        for seed in range(100):
            r = random.Random(seed)
            names = [f"v{k}" for k in range(r.choice((2, 5, 12)))]
            program = made(r, names, 2)
            program += [("out", name) for name in names]
            image = ws.link(Compiler(names).image(program), wsl=WSL)
            instrs += len(image.instructions)
            for workers in (1, 4):
                given = [r.choice((0, 1, MASK, r.getrandbits(20))) for _ in range(8)]
                world = World(names, given)
                world.run(program)
                done = ws.run(image, given, workers=workers, memory=True, wsc=WSC)
                with self.subTest(seed, workers=workers):
                    self.assertEqual((done.ending, done.words), ("halt", tuple(world.printed)))
                    self.assertEqual(done.cells("a"), tuple(world.cells))
                count, firings = count + 1, firings + (done.firings or 0)
        print(f"{count} runs of random programs, {instrs} instructions, {firings} firings")


if __name__ == "__main__":
    unittest.main()
