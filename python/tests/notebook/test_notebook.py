"""The cell magics, what objects show of themselves, explanations, orders, timed runs and checks of exercises."""

from __future__ import annotations

import base64
import contextlib
import io
import json
import re
import unittest
from typing import Any
from xml.dom import minidom

import wavescalar as ws
from repo import notebooks as check
from tests.places import ROOT, SEVEN, needs_linker
from wavescalar.notebook import load_ipython_extension, magics, show
from wavescalar.notebook.explain import explain, is_draft
from wavescalar.notebook.jobs import Job
from wavescalar.notebook.lesson import expect, judge
from wavescalar.notebook.orders import orders, seeds_that_differ
from wavescalar.notebook.timing import machines, sweep, timed

SUM = "proc main() {\n  var i, s, n;\n  read n;\n  while (i < n) {\n    i = i + 1;\n    s = s + i;\n  }\n  print s;\n}\n"
CELLS = ("array a[4];\nproc main() {\n  var i, s;\n  while (i < 3) {\n    a[i] = i * i;\n    s = s + a[0] + a[i];\n"
         "    i = i + 1;\n  }\n  print s;\n}\n")
DRAFT = re.sub(r"<.*?>\.\d", "<?, 0, ?>.0", SEVEN)


def drawn(page: str | None) -> list[str]:
    """The drawings of a page, as their SVG."""
    return [base64.b64decode(data).decode() for data in re.findall(r'src="data:image/svg\+xml;base64,([^"]*)"', page or "")]


class Magics(unittest.TestCase):
    def setUp(self) -> None:
        self.bound: dict[str, Any] = {}

    def job(self, line: str, cell: str) -> Any:
        return magics.job(line, cell, self.bound.__setitem__)

    def asm(self, line: str, cell: str) -> Any:
        return magics.asm(line, cell, self.bound.__setitem__)

    def test_words(self) -> None:
        made = self.job("total --workers 4 --input '1,2 3'", SUM)
        self.assertEqual((made.words, made.ending), ((1,), "halt"))
        self.assertEqual(self.bound["total"].run([10]).words, (55,))
        self.assertEqual(self.job("", SUM + "%input\n4\n").words, (10,))

    def test_kinds(self) -> None:
        made = self.job("--show graph,waves --show profile,cells", CELLS)
        self.assertEqual([type(part).__name__ for part in made.parts], ["Picture", "Picture", "Picture", "Run"])
        self.assertEqual(made.parts[3].cells("a"), (0, 1, 4, 0))
        self.assertEqual(len(drawn(made._repr_html_())), 3)
        page = self.job("--show page", CELLS)
        self.assertIn("srcdoc", page._repr_html_())
        self.assertIn("&quot;order&quot;:&quot;trace&quot;", page._repr_html_())
        wave = self.job("--show graph --wave 2", CELLS)
        self.assertLess(len(wave.svg), len(self.job("--show graph", CELLS).svg) + 100)
        self.assertEqual([self.asm("--show words,waves,profile,page", SEVEN).parts[0].words], [(7,)])

    def test_refusals(self) -> None:
        """A caret stands under the place, and a name of an earlier cell is none any more."""
        self.job("total", SUM)
        made = self.job("total", SUM.replace("s + i", "s + j"))
        self.assertEqual(made.answer, "refused 6:13 unknown")
        line, caret = made.lines[0], made.lines[1]
        self.assertEqual((caret.index("^"), line[caret.index("^")]), (line.index("j"), "j"))
        self.assertIn("no such name", made.lines[2])
        self.assertIsNone(self.bound["total"])
        made = self.asm("seven", SEVEN.replace("const", "cnst").replace("halt <1", "halt <1,"))
        self.assertEqual(made.places, ((6, 8), (8, 14)))
        self.assertEqual(sum("^" in line for line in made.lines), 2)
        self.assertIsNone(self.bound["seven"])

    def test_budget(self) -> None:
        self.assertEqual(self.job("--budget 5", SUM + "%input\n4\n").ending, "budget")

    def test_usage(self) -> None:
        for line, told in (("--show words,foo", "`foo` is none of"), ("--workers 9", "invalid choice"),
                           ("--link", "--link"), ("--input 'x'", "whole numbers"), ("--input '1", "quotation"),
                           ("a-b", "no name"), ("--wave", "expected one argument")):
            with self.assertRaises(magics.Usage, msg=line) as caught:
                self.job(line, SUM)
            self.assertIn(told, str(caught.exception))

    @needs_linker
    def test_drafts(self) -> None:
        made = self.asm("seven --link", DRAFT)
        self.assertEqual((made.words, str(self.bound["seven"])), ((7,), SEVEN))
        made = self.asm("", DRAFT)
        self.assertIn("--link", made.lines[-1])
        made = self.asm("--link", DRAFT.replace(" end.0", ""))
        self.assertEqual((made.answer, made.places), ("refused port 4 0", ((8, 1),)))
        self.assertTrue(is_draft(DRAFT) and not is_draft(SEVEN))

    def test_extension(self) -> None:
        class Shell:
            magics: dict[str, Any] = {}
            names: dict[str, Any] = {}

            def register_magic_function(self, act: Any, kind: str, name: str) -> None:
                self.magics[f"{kind} {name}"] = act

            class Formatter(dict[type, Any]):
                def for_type(self, kind: type, act: Any) -> None:
                    self[kind] = act

            class display_formatter:
                formatters: dict[str, Any] = {}

            def push(self, names: dict[str, Any]) -> None:
                self.names.update(names)

        shell = Shell()
        shell.display_formatter.formatters = {"text/html": Shell.Formatter(), "text/plain": Shell.Formatter()}
        load_ipython_extension(shell)
        self.assertIn(">7<", shell.display_formatter.formatters["text/html"][ws.Run](ws.run(SEVEN)))
        shell.magics["cell job"]("total --input 3", SUM)
        self.assertEqual(shell.names["total"].run().words, (6,))
        with contextlib.redirect_stdout(io.StringIO()) as told:
            self.assertIsNone(shell.magics["cell asm"]("--nothing", SEVEN))
        self.assertIn("usage: %%asm", told.getvalue())


class Shown(unittest.TestCase):
    def test_pictures_are_whole(self) -> None:
        """Each is XML, and has a box for each instruction and a row for each wave number."""
        job = Job(SUM, "sum").with_input([3])
        graph = minidom.parseString(job.graph().svg)
        nodes = [it for it in graph.getElementsByTagName("g") if it.getAttribute("data-node")]
        self.assertEqual(len(nodes), len(job.image().instructions))
        self.assertEqual(re.findall(r">(wave \d+)</text>", job.waves().svg), [f"wave {number}" for number in range(1, 6)])
        minidom.parseString(job.profile().svg)
        minidom.parseString(timed(job).picture().svg)

    def test_objects(self) -> None:
        self.assertEqual(drawn(show.html_of(ws.read(SEVEN)))[0].count("data-node"), 4)
        self.assertIn("Waves side by side", drawn(show.html_of(ws.trace(SEVEN)))[0])
        self.assertIn("Use of the elements", drawn(timed(SEVEN)._repr_html_())[0])
        self.assertIn(">7<", show.html_of(ws.run(SEVEN)))
        self.assertIn("fault a", show.html_of(Job("array a[1]; proc main() { a[1] = 2; }").run()))
        self.assertIn("&lt;", Job("proc main() { print 1 < 2; }")._repr_html_())

    def test_too_large(self) -> None:
        lines = "".join(f"  print {number};\n" for number in range(400))
        image = Job(f"proc main() {{\n{lines}}}\n").image()
        self.assertIsNone(show.html_of_image(image))
        self.assertIn("instructions", show.brief(image))
        with self.assertRaises(ws.Fault):
            show.graph(image)
        with self.assertRaises(ws.Fault):
            show.graph(ws.read(SEVEN), wave=2)

    def test_jobs(self) -> None:
        job = Job(SUM + "%input\n4\n")
        self.assertEqual((job.plain().words, job.plain().turns), ((10,), 15))
        self.assertEqual(job.plain(turns=3).ending, "budget")
        self.assertEqual(job.plain([2]).words, (3,))
        self.assertEqual(Job(job.formatted()).formatted(), job.formatted())
        self.assertEqual(job.trace().input, (4,))
        with self.assertRaises(ws.Refused):
            Job("proc main() {").run()


class Explained(unittest.TestCase):
    def refused(self, text: str) -> ws.Refused:
        with self.assertRaises(ws.Refused) as caught:
            ws.check(text)
        return caught.exception

    def test_all_faults(self) -> None:
        text = SEVEN.replace(" end.0", "").replace("1, 2>", "1, 3>")
        told = str(explain(self.refused(text), text))
        self.assertIn("no token comes to port 0", told)
        self.assertIn("successor", told)
        self.assertTrue(told.startswith(self.refused(text).answer))

    def test_html(self) -> None:
        text = SEVEN.replace("show: out <., 1, 2>.1", "show: out <b>")
        self.assertIn("&lt;b&gt;", explain(self.refused(text), text)._repr_html_())


class Orders(unittest.TestCase):
    def test_with_and_without_order(self) -> None:
        made = orders(Job(CELLS), "trace", "random-3", "rounds", "grid-4-2", "loose-1")
        self.assertEqual([order.words for order in made.orders], [(5,)] * 4 + [(0,)])
        self.assertEqual([order.replayed for order in made.orders], [True] * 4 + [None])
        self.assertFalse(made.agree)
        self.assertEqual({len(order.operations) for order in made.orders}, {12})
        self.assertEqual(made.records()[0], {"order": "trace", "place": 1, "wave": 1, "instruction": 3, "what": "nop",
                                             "early": False})
        self.assertIn("without wave order", made._repr_html_())

    def test_what_is_lost(self) -> None:
        found = seeds_that_differ(Job(CELLS), range(40))
        self.assertGreater(len(found), 1)
        self.assertEqual(sorted(seed for seeds in found.values() for seed in seeds), list(range(40)))

    def test_names(self) -> None:
        with self.assertRaises(ws.Fault):
            orders(Job(SUM), "loose-x")


class Timed(unittest.TestCase):
    def test_a_run(self) -> None:
        run = timed(Job(SUM, "sum"), [10], verify=True)
        self.assertEqual((run.words, run.ending, run.verified, run.firings), ((55,), "halt", True, 143))
        self.assertEqual(sum(run.parts.values()), run.cycles)
        self.assertIn("verified", run.picture().svg)
        self.assertIsNone(timed(SEVEN).verified)

    def test_sweeps(self) -> None:
        rows = sweep({"sum": Job(SUM).with_input([3]), "seven": SEVEN}, machine=["ideal", "one-element"], waves=range(1, 3))
        self.assertEqual([(row["program"], row["machine"], row["waves"]) for row in rows][:4],
                         [("sum", "ideal", 1), ("sum", "ideal", 2), ("sum", "one-element", 1), ("sum", "one-element", 2)])
        self.assertEqual(len(rows), 8)
        self.assertTrue(all(isinstance(row["cycles"], int) for row in rows))

    def test_places(self) -> None:
        image = ws.read(SEVEN)
        near = timed(image, places={"in": 0, "seven": 0, "show": 0, "end": 0})
        far = timed(image, places={"in": 0, "seven": 31, "show": 0, "end": 0})
        self.assertGreater(far.cycles, near.cycles)
        self.assertEqual(far.words, (7,))

    def test_faults(self) -> None:
        with self.assertRaises(ws.Fault):
            timed(SEVEN, wves=2)
        with self.assertRaises(ws.Fault):
            timed(SEVEN, waves=0)
        with self.assertRaises(ws.Fault):
            timed(SEVEN, machine="no-such-machine")
        self.assertIn("one-cluster", machines())


class Lessons(unittest.TestCase):
    def test_verdicts(self) -> None:
        self.assertTrue(expect(Job(SUM), {(10,): [55], (0,): [0]}).passed)
        wrong = expect(Job(SUM), {(10,): [55], (4,): [11]})
        self.assertFalse(wrong.passed)
        self.assertIn("on the input 4 it should print 11; it prints 10", str(wrong))
        self.assertFalse(expect(None, {(): [1]}).passed)
        self.assertFalse(expect(Job(SUM), {}).passed, "nothing was run")
        self.assertFalse(expect(Job("proc main() { while (1) { } }"), {(): []}).passed, "it doesn't come to its end")
        self.assertFalse(expect(Job("no job"), {(): []}).passed)
        self.assertFalse(expect(Job(SUM), {(1,): [1]}, also=lambda run: "it is too slow").passed)
        self.assertEqual(str(judge(False, "a prime", "it is 4")), "Not yet: wanted is a prime; it is 4.")
        self.assertTrue(judge(True, "a prime", "it is 5").passed)
        self.assertIn("<td", expect(Job(SUM), {(1,): [1]})._repr_html_())
        many = expect(Job(SUM), {**{(number,): [number * (number + 1) // 2] for number in range(20)}, (99,): [0]})
        page = many._repr_html_()
        self.assertEqual((page.count("<tr>"), page.count("✗"), many.passed), (9, 1, False))
        self.assertIn(".. and 13 more", page)


def code(source: str, told: str = "", *tags: str) -> dict[str, Any]:
    """A cell of code that printed something, or gave it, where it has a tag."""
    output: dict[str, Any] = {"output_type": "stream", "name": "stdout", "text": [told]}
    if tags:
        output = {"output_type": "execute_result", "data": {"text/plain": told, "text/html": "<p>1</p>"}}
    return {"cell_type": "code", "source": [source], "outputs": [output] if told else [], "metadata": {"tags": list(tags)}}


class Notebooks(unittest.TestCase):
    def test_exercises(self) -> None:
        """Each exercise has its check and its folded solution, and what is kept of its check says that it isn't solved."""
        files = sorted((ROOT / "examples" / "notebooks").glob("[0-9]*.ipynb"))
        self.assertEqual(len(files), 5)
        for file in files:
            notebook = json.loads(file.read_text())
            check.errors(notebook, file.name)
            check.verdicts(notebook, file.name, "Not yet")
            self.assertGreater(len(check.tagged(check.solved(notebook, file.name), "exercise")), 0)

    def test_the_check_can_fail(self) -> None:
        kept = {"cells": [code("a", "1\n"), code("b", "Not yet: no", "check:x"), code("c = 1", "", "exercise:x"),
                          {"cell_type": "markdown", "source": ["```\n", "c = 2\n", "```\n"],
                           "metadata": {"tags": ["solution:x"]}}]}

        def changed(at: int, **parts: Any) -> Any:
            made = json.loads(json.dumps(kept))
            made["cells"][at].update(parts)
            return made

        check.compare(kept, json.loads(json.dumps(kept)), "one")
        check.compare(kept, changed(1, outputs=code("b", "Not yet: no", "check:x")["outputs"]), "one")
        other = code("b", "Not yet: no", "check:x")["outputs"]
        other[0]["data"]["text/html"] = "<p>2</p>"
        for wrong in (changed(0, outputs=code("a", "2\n")["outputs"]), changed(0, outputs=[]), changed(1, outputs=other)):
            with self.assertRaises(check.Wrong):
                check.compare(kept, wrong, "one")
        check.verdicts(kept, "one", "Not yet")
        with self.assertRaises(check.Wrong):
            check.verdicts(kept, "one", "Solved")
        with self.assertRaises(check.Wrong):
            check.errors(changed(0, outputs=[{"output_type": "error", "ename": "E", "evalue": "", "traceback": []}]), "one")
        self.assertEqual(check.solved(kept, "one")["cells"][2]["source"], "c = 2")
        with self.assertRaises(check.Wrong):
            check.solved(changed(3, metadata={}), "one")

