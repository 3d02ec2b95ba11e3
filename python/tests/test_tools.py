"""Linking, checking, running, tracing and replaying by the programs, and the examples."""

import subprocess
import sys
import unittest

from tests.places import LIBRARY, ROOT, WSC, WSL, answer, needs_linker, texts

import wavescalar as ws

SEVEN = """wavescalar 2
wave 1
block start   # a comment
pad 0 in.0
in: advance -> seven.0 end.0

seven: const 7 -> show.0
show: out <., 1, 2>.1
end: halt <1, 2, .>.2
stop
end
"""

# A draft whose block `no` needs a no-op, with no room for it in the list of the merge that would trigger it.
FULL = """wavescalar 2
wave 1
block b
pad 0 in.0
in: advance -> s.0 s.1
s: steer -> y.0 | n.0
if in yes no
block yes
y: merge -> o.0 j.0
o: out <?, 0, ?>.0
go join
block no
n: merge -> m0.0 m1.0 m2.0 m3.0 m4.0 m5.0 m6.0 j.0
m0: merge ->
m1: merge ->
m2: merge ->
m3: merge ->
m4: merge ->
m5: merge ->
m6: merge ->
go join
block join
j: merge -> end.0
end: halt <?, 0, ?>.0
stop
end
"""


class Tools(unittest.TestCase):
    def refused(self, text: str) -> ws.Refused:
        with self.assertRaises(ws.Refused) as caught:
            ws.check(text, wsc=WSC)
        return caught.exception

    def test_refusals(self) -> None:
        it = self.refused(SEVEN.replace("const", "cnst"))
        self.assertEqual((it.answer, it.rule, it.line), ("refused 7 line", "line", 7))
        self.assertEqual(it.text, "seven: cnst 7 -> show.0")
        it = self.refused(SEVEN.replace(" end.0", ""))
        self.assertEqual((it.rule, it.numbers, it.line, it.instruction, it.name), ("port", (4, 0), 9, 4, "end"))
        said = "no token comes to port 0 of 4 (end) (halt); name end.0 in a list that every path passes"
        self.assertEqual(str(it), f"refused port 4 0, line 9, instruction 4 (end): end: halt <1, 2, .>.2 [{said}]")
        it = self.refused(SEVEN.replace("1, 2>", "1, 3>"))
        self.assertEqual((it.rule, it.numbers, it.line, it.name), ("link", (3, 4), 8, "show"))
        it = self.refused(SEVEN.replace("2>.1", "2>.9"))
        self.assertEqual((it.rule, it.line, it.name), ("ripple", 8, "show"))
        it = self.refused(SEVEN.replace("stop", "go start"))
        self.assertEqual((it.rule, it.line, it.block, it.block_name), ("shape", 3, 1, "start"))
        it = self.refused(SEVEN.replace("seven:", "in:"))
        self.assertEqual((it.rule, it.line), ("name", 7))
        with self.assertRaises(ws.Refused) as caught:
            ws.run(SEVEN + "%input\n1 x\n", wsc=WSC)
        self.assertEqual((caught.exception.rule, caught.exception.line, caught.exception.column), ("input", 13, 3))

    def test_refusals_of_an_image(self) -> None:
        image = ws.read(SEVEN.replace(" end.0", ""))
        with self.assertRaises(ws.Refused) as caught:
            ws.run(image, [], wsc=WSC)
        it = caught.exception
        self.assertEqual((it.line, it.name), (8, "end"))
        self.assertEqual(str(image).split("\n")[7], it.text)

    @needs_linker
    def test_link(self) -> None:
        draft = ws.read(SEVEN.replace("<., 1, 2>.1", "<?, 0, ?>.0").replace("<1, 2, .>.2", "<?, 0, ?>.0"))
        self.assertTrue(draft.is_draft)
        self.assertEqual(ws.link(draft, wsl=WSL), ws.read(SEVEN))
        with self.assertRaises(ws.Refused) as caught:
            ws.link(SEVEN.replace("in: advance ->", "in: advance -> 4.0"), wsl=WSL)
        self.assertEqual((caught.exception.rule, caught.exception.instruction), ("port", 4))
        with self.assertRaises(ws.Refused) as caught:
            ws.link(FULL, wsl=WSL)
        it = caught.exception
        self.assertEqual((it.answer, it.rule, it.line, it.name), ("refused full 5", "full", 13, "n"))

    @needs_linker
    def test_link_keeps_sound_images(self) -> None:
        """Texts that are sound print the same when their notes are made anew."""
        same = 0
        for name, text in texts().items():
            try:
                ws.check(text, wsc=WSC)
                image = ws.link(text, wsl=WSL)
            except ws.Refused:
                continue
            with self.subTest(name):
                ws.check(image, wsc=WSC)
                one = ws.run(text, wsc=WSC, budget=5000, memory=True)
                other = ws.run(image, ws.input_of(text), wsc=WSC, budget=20000, memory=True)
                if one.ending != "budget":
                    self.assertEqual((one.words, one.ending, one.memory), (other.words, other.ending, other.memory))
                    self.assertEqual([it.name for it in ws.read(text).blocks if it.name],
                                     [it.name for it in image.blocks if it.name])
                    same += 1
        print(f"{same} images linked anew print the same")
        self.assertGreater(same, 5)

    def test_runs(self) -> None:
        for workers in (1, 2, 8):
            done = ws.run(SEVEN, workers=workers, wsc=WSC)
            self.assertEqual((done.words, done.ending, done.firings), ((7,), "halt", 4))
        self.assertEqual(ws.run(SEVEN, budget=1, wsc=WSC).ending, "budget")
        done = ws.run((ROOT / "examples" / "fault.asm").read_text(), wsc=WSC, memory=True)
        self.assertEqual((done.ending, done.where, done.cells("a"), done.firings), ("fault", "a", (0, 9), None))
        with self.assertRaises(ws.CallFault) as caught:
            ws.run(SEVEN, workers=99, wsc=WSC)
        self.assertEqual(caught.exception.status, 1)
        with self.assertRaises(ws.CallFault):
            ws.run(SEVEN, wsc="/nowhere/wsc")
        with self.assertRaises(ws.Fault):
            ws.run(SEVEN, [1 << 64], wsc=WSC)

    def test_other_runs(self) -> None:
        """Images on a grid, with decoupled stores, and listed."""
        done = ws.decouple(SEVEN, [1], wsc=WSC)
        self.assertEqual((done.words, done.ending, done.firings, done.cycles), ((7,), "halt", 4, None))
        self.assertEqual(ws.decouple(SEVEN, budget=1, wsc=WSC).ending, "budget")
        # the cycles of docs/GRID.md, and of tests/grid.txt
        for elements, cycles in ((1, 5), (2, 4)):
            done = ws.grid(SEVEN, elements=elements, waves=1, wsc=WSC)
            self.assertEqual((done.words, done.ending, done.firings, done.cycles), ((7,), "halt", 4, cycles))
        self.assertEqual(ws.grid(SEVEN, budget=0, wsc=WSC).ending, "budget")
        # fewer waves in flight take more cycles
        matrix = answer(["compile"], (ROOT / "examples" / "matrix.job").read_text())
        counts = [ws.grid(matrix, elements=64, waves=waves, wsc=WSC).cycles or 0 for waves in (1, 4)]
        self.assertGreater(counts[0], counts[1])
        fault = (ROOT / "examples" / "fault.asm").read_text()
        for done in (ws.decouple(fault, memory=True, wsc=WSC), ws.grid(fault, memory=True, wsc=WSC)):
            self.assertEqual((done.ending, done.where, done.cells("a"), done.cycles), ("fault", "a", (0, 9), None))
        wanted = ("wave 1: 1 blocks", "block 1: 4 instructions, stop", "3 out <., 1, 2>.1", "4 halt <1, 2, .>.2")
        for told in (ws.listing(SEVEN, wsc=WSC), ws.listing(ws.read(SEVEN), wsc=WSC)):
            self.assertEqual(tuple(told.splitlines()[:4]), wanted)
        with self.assertRaises(ws.Refused):
            ws.listing(SEVEN.replace(" end.0", ""), wsc=WSC)

    def test_jobs(self) -> None:
        one = "array a[2]; proc main() { var x; read x; a[1] = 2; print x; }\n%input\n9\n"
        two = "proc main() { print 5; }"
        endless, past = "proc main() { while (1) { } }", "array a[1]; proc main() { print 3; a[1] = 2; }"
        first, second = ws.multi([one, two], workers=2, memory=True, wsc=WSC)
        self.assertEqual((first.words, first.ending, first.cells("a")), ((9,), "halt", (0, 2)))
        self.assertEqual((second.words, second.ending, second.memory), ((5,), "halt", ()))
        # the first thread alone has ports
        gives = "proc main() { take 1, 8; }"
        self.assertEqual([it.handed for it in ws.multi([gives, gives], wsc=WSC)], [(8,), ()])
        done = ws.multi([two, endless, past], budget=300, wsc=WSC)
        self.assertEqual([(it.words, it.ending, it.where) for it in done],
                         [((5,), "halt", None), ((), "budget", None), ((3,), "fault", "a")])
        with self.assertRaises(ws.Refused) as caught:
            ws.multi([two, "proc main() { print x; }"], wsc=WSC)
        self.assertEqual((caught.exception.rule, caught.exception.line), ("unknown", 3))
        with self.assertRaises(ws.Refused) as caught:
            ws.multi([two] * 5, wsc=WSC)
        self.assertEqual(caught.exception.rule, "threads")
        with self.assertRaises(ws.Fault):
            ws.multi([f"{two}\n%job\n{two}"], wsc=WSC)

    def test_refusals_lead_on(self) -> None:
        """A draft that isn't linked yet is told so, and a star import leaves `print` alone."""
        with self.assertRaises(ws.Refused) as caught:
            ws.run(SEVEN.replace("<., 1, 2>.1", "<?, 0, ?>.0"), wsc=WSC)
        self.assertEqual((caught.exception.rule, caught.exception.said), (
            "link", "this is a draft: `link` gives it notes first"))
        self.assertNotIn("print", ws.__all__)
        self.assertEqual(ws.print(ws.read(SEVEN)), str(ws.read(SEVEN)))

    @needs_linker
    def test_page(self) -> None:
        """The example of docs/PYTHON.md prints what the comment of its last line says."""
        page = (ROOT / "docs" / "PYTHON.md").read_text()
        example = page.partition("```python\n")[2].partition("```")[0]
        env = {"PYTHONPATH": str(LIBRARY), "WSC": WSC, "WSL": WSL}
        done = subprocess.run([sys.executable, "-c", example], capture_output=True, text=True, env=env, check=False)
        self.assertEqual((done.stdout.strip(), done.stderr), (example.strip().rpartition("# ")[2], ""))

    def test_traces(self) -> None:
        trace = ws.trace(SEVEN, [4], wsc=WSC)
        self.assertEqual((trace.ending, trace.input, len(trace.events)), ("halt", (4,), 6))
        self.assertEqual(trace.events[0], ws.Match(0, 1, 0))
        self.assertEqual(trace.image, ws.read(SEVEN))
        done = ws.replay(trace, wsc=WSC)
        self.assertEqual((done.words, done.rests, done.firings), ((7,), True, 4))
        self.assertEqual(ws.read_trace(str(trace)).events, trace.events)
        part = ws.Trace(trace.image, (), trace.events[:2])
        self.assertFalse(ws.replay(part, wsc=WSC).rests)
        wrong = ws.Trace(trace.image, (), trace.events[::-1])
        with self.assertRaises(ws.Refused) as caught:
            ws.replay(wrong, wsc=WSC)
        it = caught.exception
        self.assertEqual((it.rule, it.text), ("illegal", str(wrong.events[0])))

    @needs_linker
    def test_examples(self) -> None:
        for words, wanted in (
            (["array_sum.py", *"12345678"], "a is 1 2 3 4 5 6 7 8 and the sum is 36\n"),
            (["call.py", "3", "4"], "25\n"),
            (["translate.py", "x = read(); print(x * x if x < 10 else 0 - x)", "7"], "49\n"),
        ):
            line = [sys.executable, str(ROOT / "examples" / "python" / words[0]), *words[1:]]
            env = {"PYTHONPATH": str(LIBRARY), "WSC": WSC, "WSL": WSL}
            done = subprocess.run(line, capture_output=True, text=True, env=env, check=False)
            self.assertEqual((done.stdout, done.stderr), (wanted, ""))


if __name__ == "__main__":
    unittest.main()
