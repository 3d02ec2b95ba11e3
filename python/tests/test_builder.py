"""The builder: every instruction in both versions, lists that are spread, names, and what it refuses."""

import random
import unittest
from collections.abc import Callable

from tests.places import LIBRARY, WSC, WSL, needs_linker

import wavescalar as ws
from wavescalar.isa import ALU, KINDS

MASK = (1 << 64) - 1
DO: dict[str, Callable[[int, int], int]] = {
    "add": lambda a, b: a + b, "sub": lambda a, b: a - b, "mul": lambda a, b: a * b,
    "div": lambda a, b: a // b if b else MASK, "rem": lambda a, b: a % b if b else a, "and": lambda a, b: a & b,
    "or": lambda a, b: a | b, "xor": lambda a, b: a ^ b,
    "shl": lambda a, b: a << b % 64, "shr": lambda a, b: a >> b % 64,
    "eq": lambda a, b: a == b, "ne": lambda a, b: a != b, "lt": lambda a, b: a < b, "le": lambda a, b: a <= b,
    "gt": lambda a, b: a > b, "ge": lambda a, b: a >= b,
}  # fmt: skip


def linked(b: ws.Builder) -> ws.Image:
    image = ws.link(b.image(), wsl=WSL)
    ws.check(image, wsc=WSC)
    return image


def begun(version: int = 2) -> tuple[ws.Builder, ws.BlockBuilder]:
    b = ws.Builder(version)
    start = b.wave().block("start")
    start.pulse = start.arrive(0, "pulse")
    return b, start


def every(version: int) -> ws.Builder:
    """A program with every instruction."""
    b, start = begun(version)
    a, kept = b.array("a", 4), b.hidden(2)
    x = start.in_(name="x")
    for op in ALU:
        method = getattr(start, op + "_" if op in ("and", "or") else op)
        start.out(method(x, 3, name=f"made_{op}"))
    start.store(a, 1, x)
    start.store(kept, 0, start.load(a, 1))
    start.out(start.phi(x, 9, start.load(kept, 0)))
    start.take(1, x)
    start.out(start.give(2))
    start.nop()
    start.out(start.const(-1))
    more = start.lt(x, 100, name="small")
    which = start.steer(x, more)
    pulse = start.steer(start.pulse, more)
    yes, no = start.branch(more)
    join, landing = start.wave.block("join"), b.wave().block("landing")
    yes.pulse, no.pulse = pulse.yes, pulse.no
    twice = yes.add(which.yes, 1)
    yes.go(join)
    no.go(join)
    value = join.merge(twice, which.no, name="value")
    on = join.merge(pulse.yes, pulse.no)
    to = join.const(0, on)
    join.send(0, to, on)
    join.send(3, to, value)
    join.send_to(to, landing)
    landing.pulse = landing.arrive(0)
    landing.out(landing.arrive(3))
    landing.stop()
    return b


class Building(unittest.TestCase):
    @needs_linker
    def test_every_instruction(self) -> None:
        for version in (1, 2):
            image = linked(every(version))
            self.assertEqual({it.op for it in image.instructions}, set(KINDS))
            self.assertEqual(image.version, version)
            self.assertEqual("made_add" in str(image), version == 2)
            for x in (5, 100, 0, MASK):
                done = ws.run(image, [x], wsc=WSC, memory=True)
                words = [int(DO[op](x, 3)) & MASK for op in ALU] + [x if x else 9, 0, MASK, x + 1 if x < 100 else x]
                self.assertEqual(done.words, tuple(words))
                self.assertEqual((done.ending, done.handed, done.cells("a")), ("halt", (x,), (0, x, 0, 0)))

    @needs_linker
    def test_operators(self) -> None:
        chosen, rows = random.Random(5), 0
        for _ in range(20):
            b, start = begun()
            x, y = start.in_(), start.in_()
            values: list[ws.Value] = [x, y]
            terms = []
            for _ in range(40):
                op, left, right = chosen.choice(ALU), chosen.randrange(len(values)), chosen.randrange(len(values))
                terms.append((op, left, right))
                values.append(start.alu(op, values[left], values[right]))
            for value in values:
                start.out(value)
            start.stop()
            image = linked(b)
            for _ in range(3):
                words = [chosen.choice((0, 1, 2, 63, 64, MASK, chosen.getrandbits(64))) for _ in range(2)]
                wanted = list(words)
                for op, left, right in terms:
                    wanted.append(int(DO[op](wanted[left], wanted[right])) & MASK)
                self.assertEqual(ws.run(image, words, wsc=WSC, workers=chosen.choice((1, 2, 8))).words, tuple(wanted))
                rows += 1
        self.assertEqual(rows, 60)

    @needs_linker
    def test_long_lists(self) -> None:
        for count in (1, 7, 8, 9, 50, 51, 400):
            b, start = begun()
            x = start.in_(name="x")
            total: ws.Value = start.const(0)
            for _ in range(count):
                total = start.add(total, x)
            start.out(total)
            for _ in range(count):
                start.out(start.pulse)
            start.stop()
            draft = b.image()
            self.assertLessEqual(max(len(uses) for it in draft.instructions for uses in it.lists), 7)
            self.assertEqual(draft, b.image())
            self.assertEqual(ws.run(linked(b), [3], wsc=WSC).words, (3 * count, *[0] * count))

    @needs_linker
    def test_long_lists_of_steers(self) -> None:
        """A steer that sends to 30 advances of the next wave, and to a long list in an arm."""
        b, start = begun()
        after = b.wave().block("after")
        x = start.in_()
        more = start.ne(x, 0)
        value, pulse = start.steer(x, more, name="value"), start.steer(start.pulse, more)
        yes, no = start.branch(more)
        yes.pulse, no.pulse = pulse.yes, pulse.no
        yes.go(after)
        no.go(after)
        after.pulse = after.advance(pulse.yes, pulse.no)
        total: ws.Value = after.const(0)
        for _ in range(30):
            total = after.add(total, after.advance(value.yes, value.no))
        after.out(total)
        after.stop()
        image = linked(b)
        self.assertEqual([ws.run(image, [x], wsc=WSC).words for x in (2, 0)], [(60,), (0,)])
        self.assertIn("value_t0: steer", str(image))

    def test_own_notes(self) -> None:
        b = ws.Builder()
        start = b.wave().block("start")
        start.pulse = start.arrive(0, "in")
        start.out(start.const(7, name="seven"), name="show", note=ws.Note(".", 1, 2, 1))
        start.stop()
        self.assertTrue(b.image().is_draft)
        b = ws.Builder()
        start = b.wave().block("start")
        start.pulse = start.arrive(0, "in")
        start.out(start.const(7, name="seven"), name="show", note=ws.Note(".", 1, 2, 1))
        start.halt(name="end", note=ws.Note(1, 2, ".", 2))
        start.stop()
        image = b.image()
        self.assertFalse(image.is_draft)
        wanted = (
            "wavescalar 2\nwave 1\nblock start\npad 0 in.0\nin: advance -> seven.0 end.0\nseven: const 7 -> show.0\n"
            "show: out <., 1, 2>.1\nend: halt <1, 2, .>.2\nstop\nend\n"
        )
        self.assertEqual(str(image), wanted)
        ws.check(image, wsc=WSC)

    def test_faults(self) -> None:
        def no_exit() -> None:
            b, _ = begun()
            b.image()

        def nothing_comes() -> None:
            b, start = begun()
            start.out(start.merge(name="lonely"))
            start.stop()
            b.image()

        def no_pulse() -> None:
            ws.Builder().wave().block().const(1)

        def twice() -> None:
            b, start = begun()
            start.const(1, name="pulse")
            start.stop()
            b.image()

        def strange() -> None:
            (b, start), (_, other) = begun(), begun()
            start.go(other)
            other.stop()
            b.image()

        def wide() -> None:
            begun()[1].const(1 << 64)

        def port() -> None:
            _, start = begun()
            start.const(1).to(start.merge(), 1)

        def another_wave() -> None:
            b, start = begun()
            later = b.wave().block("later")
            later.out(start.const(1))

        def pulse_of_another_wave() -> None:
            b, start = begun()
            later = b.wave().block("later")
            later.pulse = start.pulse
            later.const(1)

        def no_array() -> None:
            _, start = begun()
            start.store("a", 0, 1)  # type: ignore[arg-type]

        def no_operand() -> None:
            _, start = begun()
            start.out(1.5)  # type: ignore[arg-type]

        def nothing() -> None:
            _, start = begun()
            start.out(None)  # type: ignore[arg-type]

        def no_operation() -> None:
            _, start = begun()
            start.alu("plus", 1, 2)

        def no_block() -> None:
            _, start = begun()
            start.go("end")  # type: ignore[arg-type]

        def no_instruction() -> None:
            _, start = begun()
            start.const(1).to("next")  # type: ignore[arg-type]

        def no_advance() -> None:
            _, start = begun()
            start.pad(1, "next")  # type: ignore[arg-type]

        def no_name() -> None:
            ws.Builder().array(3, 3)  # type: ignore[arg-type]

        for made, told in ((no_exit, "has no exit"), (nothing_comes, "nothing comes to port 0 of lonely"), (no_pulse, "has no pulse"),
                           (twice, "two have the name pulse"), (strange, "in another program"), (wide, "no word of 64 bits"),
                           (port, "has no port 1"), (another_wave, "in another wave: bring it in"),
                           (pulse_of_another_wave, "in another wave"), (no_array, "'a' is no array"), (no_operand, "1.5 is no operand"),
                           (nothing, "None is no operand"), (no_operation, "no operation 'plus'"), (no_block, "'end' is no block"),
                           (no_instruction, "'next' is no instruction"), (no_advance, "'next' is no instruction"),
                           (no_name, "3 is no name")):
            with self.subTest(made.__name__), self.assertRaisesRegex(ws.BuildFault, told):
                made()

    def test_library_stands_here(self) -> None:
        self.assertTrue((LIBRARY / "wavescalar" / "py.typed").exists())


if __name__ == "__main__":
    unittest.main()
