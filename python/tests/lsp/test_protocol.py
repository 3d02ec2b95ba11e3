"""The language server, spoken to over pipes as an editor does."""

from __future__ import annotations

import re
import time
import unittest
from typing import Any

from tests.lsp.client import PATIENCE, Client
from tests.places import ROOT, SEVEN, WSC, WSL, answer
from wavescalar.lsp.documents import Document
from wavescalar.lsp.faults import Programs, faults_of
from wavescalar.lsp.jobs import JobText, parts_of
from wavescalar.lsp.layout import NoLayout, formatted

SUM = """# adds up
proc add(x, y) {
  return x + y;
}
proc main() {
  var i, s, n;
  read n;
  while (i < n) {
    i = i + 1;
    s = add(s, i);
  }
  print s;
}
%input
3
"""
JOB, ASM = "file:///work/sum.job", "file:///work/seven.asm"


def places(marks: Any) -> list[tuple[int, int, int, str]]:
    """Line, begin, end and rule of each diagnostic."""
    return [(it["range"]["start"]["line"], it["range"]["start"]["character"], it["range"]["end"]["character"], it["code"])
            for it in marks["diagnostics"]]


def starts(locations: Any) -> list[tuple[int, int]]:
    return [(it["range"]["start"]["line"], it["range"]["start"]["character"]) for it in locations]


class Served(unittest.TestCase):
    def setUp(self) -> None:
        self.client = Client("--delay", "0.1")
        self.addCleanup(self.client.close)

    def started(self) -> Client:
        self.client.start()
        return self.client


class Life(Served):
    def test_exits(self) -> None:
        self.started()
        self.assertEqual(self.client.end(), 0)

    def test_exit_without_shutdown(self) -> None:
        self.started().tell("exit")
        self.assertEqual(self.client.server.wait(timeout=PATIENCE), 1)

    def test_end_of_input(self) -> None:
        self.started().sink.close()
        self.assertEqual(self.client.server.wait(timeout=PATIENCE), 1)

    def test_order_of_requests(self) -> None:
        self.assertEqual(self.client.at("hover", JOB, 0, 0)[0], -32002)
        told = self.client.start()
        self.assertTrue(told["hoverProvider"] and told["documentFormattingProvider"])
        self.assertEqual(self.client.ask("initialize")[0], -32600)
        self.assertIsNone(self.client.ask("shutdown"))
        self.assertEqual(self.client.at("hover", JOB, 0, 0)[0], -32600)
        self.client.tell("exit")
        self.assertEqual(self.client.server.wait(timeout=PATIENCE), 0)

    def test_bad_messages(self) -> None:
        """Each is answered, and the server goes on."""
        client = self.started()
        for body, code in ((b"{", -32700), (b"\xff\xfe", -32700), (b"[1, 2]", -32700), (b"{}", -32600),
                           (b"[" * 100000, -32700), (b'{"id": 1, "method": 7}', -32600)):
            client.body(body)
            self.assertEqual(client.answers.get(timeout=PATIENCE)["error"]["code"], code, body[:20])
        client.raw(b"Content-Length: many\r\n\r\n")
        self.assertEqual(client.answers.get(timeout=PATIENCE)["error"]["code"], -32700)
        client.raw(b"Content-Type: text\r\n\r\n")
        self.assertEqual(client.answers.get(timeout=PATIENCE)["error"]["code"], -32700)
        self.assertEqual(client.ask("textDocument/dance")[0], -32601)
        self.assertEqual(client.ask("textDocument/hover")[0], -32602)
        self.assertEqual(client.at("hover", "file:///nowhere.job", 0, 0)[0], -32602)
        client.tell("textDocument/didChange", textDocument={"uri": "file:///nowhere.job"})
        client.tell("$/setTrace", value="off")
        client.send(id=77, result=None)  # an answer that nobody waits for
        client.open(JOB, SUM)
        self.assertEqual(client.marks(JOB)["diagnostics"], [])
        self.assertEqual(client.end(), 0)


class WithoutProgram(unittest.TestCase):
    def test_it_goes_on(self) -> None:
        client = Client("--wsc", "/nowhere/wsc", "--delay", "0.1")
        self.addCleanup(client.close)
        client.start()
        client.open(JOB, SUM)
        told = client.marks(JOB)["diagnostics"]
        self.assertEqual([it["code"] for it in told], ["tools"])
        self.assertIn("can't be run", told[0]["message"])
        self.assertEqual(client.ask("textDocument/formatting", textDocument={"uri": JOB})[0], -32603)
        self.assertEqual(starts(client.at("definition", JOB, 9, 9)), [(1, 5)])
        self.assertEqual(client.end(), 0)


class Diagnostics(Served):
    def test_a_job(self) -> None:
        client = self.started()
        client.open(JOB, SUM)
        self.assertEqual(client.marks(JOB), {"uri": JOB, "version": 1, "diagnostics": []})
        client.change(JOB, 2, {"text": SUM.replace("print s;", "print t;")})
        told = client.marks(JOB)
        self.assertEqual((told["version"], places(told)), (2, [(11, 8, 9, "unknown")]))
        self.assertEqual(told["diagnostics"][0]["message"], "no variable `t` is visible here")
        client.change(JOB, 3, {"text": SUM.replace("print s;", "print while;")})
        told = client.marks(JOB)
        self.assertEqual(places(told), [(11, 8, 13, "syntax")])
        self.assertIn("no program goes on with this lexeme here", told["diagnostics"][0]["message"])

    def test_all_names_of_a_job(self) -> None:
        client = self.started()
        text = SUM.replace("add(s, i)", "add(s)").replace("print s;", "print t;").replace("s, n;", "s, n, s;")
        client.open(JOB, text)
        told = client.marks(JOB)
        self.assertEqual(sorted(places(told)), [(5, 15, 16, "twice"), (9, 8, 11, "count"), (11, 8, 9, "unknown")])
        said = {it["code"]: it["message"] for it in told["diagnostics"]}
        self.assertEqual(said["count"], "`add` has 2 parameters, and the call has 1 argument")
        self.assertIn("variable of main", said["twice"])

    def test_input_words(self) -> None:
        client = self.started()
        client.open(JOB, SUM + "4 -5 18446744073709551616\n")
        self.assertEqual(places(client.marks(JOB)), [(15, 2, 4, "input"), (15, 5, 25, "input")])

    def test_several_jobs(self) -> None:
        client = self.started()
        client.open(JOB, SUM + "%job\nproc main() { print x; }\n%input\n1 y\n%job\nproc main() { }\n")
        self.assertEqual(places(client.marks(JOB)), [(16, 20, 21, "unknown")])

    def test_all_faults_of_an_assembly(self) -> None:
        client = self.started()
        client.open(ASM, SEVEN.replace("const", "cnst").replace("halt <1", "halt <1,"))
        self.assertEqual(places(client.marks(ASM)), [(5, 7, 11, "line"), (7, 13, 14, "line")])
        client.change(ASM, 2, {"text": SEVEN.replace(" end.0", "")})
        told = client.marks(ASM)
        self.assertEqual(places(told), [(7, 0, 3, "port")])
        self.assertIn("no token comes to port 0", told["diagnostics"][0]["message"])
        client.change(ASM, 3, {"text": SEVEN})
        self.assertEqual(places(client.marks(ASM)), [])

    def test_drafts_and_traces(self) -> None:
        client = self.started()
        draft = re.sub(r"<.*?>\.\d", "<?, 0, ?>.0", SEVEN)
        client.open("file:///a.draft", draft)
        self.assertEqual(places(client.marks("file:///a.draft")), [])
        client.open("file:///a.asm", draft)
        self.assertNotEqual(places(client.marks("file:///a.asm")), [])
        trace = (ROOT / "examples" / "inorder.trace").read_text()
        client.open("file:///a.trace", trace)
        self.assertEqual(places(client.marks("file:///a.trace")), [])
        events = trace.partition("%trace\n")[2].splitlines(keepends=True)
        late = trace.partition("%trace\n")[0] + "%trace\n" + "".join([events[1], events[0], *events[2:]])
        client.open("file:///b.trace", late)
        told = client.marks("file:///b.trace")
        line = late.count("\n", 0, late.index("%trace")) + 1
        self.assertEqual([(it[0], it[3]) for it in places(told)], [(line, "illegal")])

    def test_the_latest_text_wins(self) -> None:
        client = self.started()
        client.open(JOB, SUM)
        client.marks(JOB)
        for version in range(2, 40):
            client.change(JOB, version, {"text": SUM.replace("print s;", f"print {'t' * version};")})
        told = client.marks(JOB)
        self.assertEqual((told["version"], places(told)), (39, [(11, 8, 47, "unknown")]))
        time.sleep(0.4)
        self.assertTrue(client.notes.empty(), "an older text was told of")

    def test_closing(self) -> None:
        client = self.started()
        client.open(JOB, "proc")
        self.assertEqual(len(client.marks(JOB)["diagnostics"]), 1)
        client.tell("textDocument/didClose", textDocument={"uri": JOB})
        self.assertEqual(client.marks(JOB)["diagnostics"], [])

    def test_columns_in_utf16(self) -> None:
        """A character beyond 16 bits counts 2 in the protocol, 4 in the program, 1 in Python."""
        client = self.started()
        client.open(ASM, SEVEN.replace("seven: const 7 -> show.0", "seven: const 7 𝄞é -> show.0"))
        self.assertEqual(places(client.marks(ASM)), [(5, 15, 17, "line")])
        client.open(JOB, "proc main() { # é𝄞\n# 𝄞𝄞\n  print 1 𝄞; }\n")
        self.assertEqual(places(client.marks(JOB)), [(2, 10, 12, "byte")])
        client.change(JOB, 2, {"range": {"start": {"line": 2, "character": 10}, "end": {"line": 2, "character": 13}},
                               "text": "; print x;"})
        self.assertEqual(places(client.marks(JOB)), [(2, 18, 19, "unknown")])


class Places(Served):
    def test_names_of_a_job(self) -> None:
        client = self.started()
        client.open(JOB, SUM)
        self.assertEqual(starts(client.at("definition", JOB, 9, 9)), [(1, 5)])
        self.assertEqual(starts(client.at("definition", JOB, 2, 10)), [(1, 9)])
        self.assertEqual(starts(client.at("references", JOB, 5, 6, context={"includeDeclaration": False})),
                         [(7, 9), (8, 4), (8, 8), (9, 15)])
        self.assertEqual(len(client.at("references", JOB, 5, 6, context={"includeDeclaration": True})), 5)
        self.assertEqual(client.at("definition", JOB, 0, 3), [])
        self.assertIn("proc add(x, y)", client.at("hover", JOB, 9, 9)["contents"]["value"])
        self.assertIn("modulo 2^64", client.at("hover", JOB, 2, 11)["contents"]["value"])
        self.assertIn("0x3", client.at("hover", JOB, 14, 0)["contents"]["value"])
        self.assertIsNone(client.at("hover", JOB, 0, 3))

    def test_symbols(self) -> None:
        client = self.started()
        client.open(JOB, "array a[4];\n" + SUM)
        found = client.ask("textDocument/documentSymbol", textDocument={"uri": JOB})
        self.assertEqual([(it["name"], [inner["name"] for inner in it["children"]]) for it in found],
                         [("a", []), ("add", ["x", "y"]), ("main", ["i", "s", "n"])])
        client.open(ASM, SEVEN)
        wave, = client.ask("textDocument/documentSymbol", textDocument={"uri": ASM})
        self.assertEqual((wave["name"], wave["children"][0]["name"]), ("wave 1", "block start"))
        self.assertEqual([it["name"] for it in wave["children"][0]["children"]], ["in", "seven", "show", "end"])

    def test_labels_of_an_assembly(self) -> None:
        client = self.started()
        client.open(ASM, SEVEN)
        self.assertEqual(starts(client.at("definition", ASM, 4, 16)), [(5, 0)])
        self.assertEqual(starts(client.at("references", ASM, 5, 1)), [(4, 15), (5, 0)])
        self.assertIn("Port 0: trigger", client.at("hover", ASM, 4, 16)["contents"]["value"])
        self.assertIn("gives the number K", client.at("hover", ASM, 5, 8)["contents"]["value"].replace("Gives", "gives"))
        self.assertIn("Number 1 in its wave", client.at("hover", ASM, 6, 12)["contents"]["value"])
        text = (ROOT / "examples" / "names.asm").read_text()
        client.open("file:///names.asm", text)
        line = text[: text.index("go finish")].count("\n")
        there, = client.at("definition", "file:///names.asm", line, 3)
        self.assertEqual(text.split("\n")[there["range"]["start"]["line"]], "block finish")

    def test_numbers_beside_names(self) -> None:
        """A number stands for the line that has a name, which is the same thing."""
        client = self.started()
        client.open(ASM, SEVEN.replace("seven.0 end", "2.0 end"))
        self.assertEqual(starts(client.at("definition", ASM, 4, 15)), [(5, 0)])

    def test_completion(self) -> None:
        client = self.started()
        client.open(JOB, SUM)
        names = {it["label"] for it in client.at("completion", JOB, 8, 4)}
        self.assertTrue({"i", "s", "n", "add", "while"} <= names)
        self.assertFalse({"x", "main"} & names)
        self.assertEqual(client.at("completion", JOB, 14, 1), [])
        client.open(ASM, SEVEN)
        self.assertIn("steer", {it["label"] for it in client.at("completion", ASM, 5, 7)})
        self.assertEqual({it["label"] for it in client.at("completion", ASM, 5, 18)}, {"in", "seven", "show", "end"})
        client.open(ASM, SEVEN.replace("stop", "go "), 2)
        self.assertEqual([it["label"] for it in client.at("completion", ASM, 8, 3)], ["start"])

    def test_formatting(self) -> None:
        client = self.started()
        text = ("# a program\nproc main(){var x; var y; # two\n read x; # the first\n print ((x+y)) ;\n # the end\n}\n"
                "%input\n 007\n")
        client.open(JOB, text)
        options = {"tabSize": 2, "insertSpaces": True}
        edit, = client.ask("textDocument/formatting", textDocument={"uri": JOB}, options=options)
        self.assertEqual(edit["newText"], "# a program\nproc main() {\n  var x, y;  # two\n  read x;  # the first\n"
                         "  print x + y;\n  # the end\n}\n%input\n 007\n")
        client.open(JOB, "proc main() { print ; }", 2)
        self.assertIsNone(client.ask("textDocument/formatting", textDocument={"uri": JOB}))
        self.assertIn("isn't a job", client.note("window/showMessage")["message"])
        client.open(ASM, SEVEN.replace("show: out <., 1, 2>.1", "show:out<. ,1,2> .1   # prints"))
        edit, = client.ask("textDocument/formatting", textDocument={"uri": ASM})
        self.assertEqual(edit["newText"], SEVEN.replace("show: out <., 1, 2>.1", "show: out <., 1, 2>.1  # prints"))


def shelved() -> dict[str, str]:
    """Jobs of the repository's tests, by where they stand: those that are refused among them."""
    found = {}
    for file in sorted((ROOT / "tests").glob("*.txt")):
        text = file.read_bytes().decode(errors="replace")
        parts = re.split(r"^> wsc (?=run|plain|format|compile)", text, flags=re.MULTILINE)
        for count, part in enumerate(parts[1:], 1):
            found[f"{file.name}:{count}"] = part.partition("\n")[2].partition("\n=")[0]
    return found


class BesideTheProgram(unittest.TestCase):
    """What the server works out by itself, compared with what the program says of the texts of tests/."""

    def test_names(self) -> None:
        """Where the program finds no fault there is none, and where it names one of names it is among those found."""
        seen = 0
        for place, text in shelved().items():
            if len(parts_of(text)) > 1:
                continue
            said = answer(["format"], text).strip()
            document = Document("a.job", 1, "job", text)
            found = {(document.place(it.at[0])["line"] + 1, it.rule) for it in JobText(document).faults}
            refused = re.fullmatch(r"refused (\d+):\d+ (unknown|twice|kind|count)", said)
            if refused:
                seen += 1
                self.assertIn((int(refused[1]), refused[2]), found, place)
            elif not said.startswith("refused"):
                self.assertEqual(found, set(), place)
        self.assertGreater(seen, 10)

    def test_the_first_fault_is_the_programs(self) -> None:
        """The program's refusal is among the diagnostics, and a text that it takes has none."""
        for place, text in shelved().items():
            if len(parts_of(text)) > 1 or "\ufffd" in text or len(text) > 200000:
                continue
            said = answer(["format"], text).strip()
            found = faults_of(Document("a.job", 1, "job", text), Programs(WSC, WSL))
            rules = {it["code"] for it in found}
            if said.startswith("refused "):
                self.assertIn(said.split()[2] if ":" in said else said.split()[1], rules, place)
            else:
                self.assertEqual(rules, set(), place)

    def test_layout(self) -> None:
        """A formatted text is a text of the same program, stays as it is when it is formatted anew, and has its comments."""
        for file in [*sorted((ROOT / "examples").glob("**/*.job")), *sorted((ROOT / "examples" / "viewer").glob("*.job"))]:
            text = file.read_text()
            try:
                once = formatted(Document("a.job", 1, "job", text), WSC)
            except NoLayout as why:
                self.fail(f"{file.name}: {why}")
            self.assertEqual(formatted(Document("a.job", 1, "job", once), WSC), once, file.name)
            self.assertEqual(answer(["format"], once), answer(["format"], text), file.name)
            self.assertEqual(once.count("#"), text.count("#"), file.name)

    def test_comments(self) -> None:
        """They stay with what they stood beside, also where the printed form leaves lexemes out."""
        text = ("# head\narray a[2]; # cells\nproc main() { # begins\n  var x; # first\n  var y;\n  # then\n  x = ((1)) + (2);\n"
                "  if (x) { y = 1; } else { # nothing\n  }\n  # next\n  print y;\n} # over\n# last\n")
        self.assertEqual(formatted(Document("a.job", 1, "job", text), WSC),
                         "# head\narray a[2];  # cells\nproc main() {  # begins\n  var x, y;  # first\n  # then\n"
                         "  x = 1 + 2;\n  if (x) {\n    y = 1;\n  }  # nothing\n  # next\n  print y;\n}  # over\n# last\n")

    def test_layout_of_assemblies(self) -> None:
        for file in sorted((ROOT / "examples").glob("*.asm")):
            text = file.read_text()
            once = formatted(Document("a.asm", 1, "assembly", text), WSC)
            self.assertEqual(formatted(Document("a.asm", 1, "assembly", once), WSC), once, file.name)
            self.assertEqual(answer(["list"], once), answer(["list"], text), file.name)
        made = answer(["compile"], SUM)
        self.assertEqual(formatted(Document("a.asm", 1, "assembly", made), WSC), made, "the program's own print")
