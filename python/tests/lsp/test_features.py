"""Renaming, code actions, semantic colours, drafts by their linker, large texts and hard messages, over pipes as an editor
speaks; and the edits of texts behind them.
"""

from __future__ import annotations

import random
import re
import time
from typing import Any

import pytest

from tests.lsp.client import PATIENCE, Client
from tests.lsp.test_protocol import ASM, JOB, SUM, places, starts
from tests.places import EXAMPLES, SEVEN, WSC, WSL, answer, needs_linker
from wavescalar.lsp import glances
from wavescalar.lsp.assemblies import AssemblyText
from wavescalar.lsp.colours import MODIFIERS, TYPES, encoded as colours_of
from wavescalar.lsp.documents import Document, changed
from wavescalar.lsp.faults import verdict
from wavescalar.lsp.large import LargeText

DRAFT = "file:///work/seven.draft"
UNLINKED = re.sub(r"<.*?>\.\d", "<?, 0, ?>.0", SEVEN)


@pytest.fixture
def client() -> Any:
    """A server that is begun."""
    made = Client("--delay", "0.05")
    made.start()
    yield made
    made.close()


def applied(text: str, edits: list[dict[str, Any]]) -> str:
    """A text with these edits, of which none overlaps another."""
    document = Document("", 1, "job", text)
    for edit in sorted(edits, key=lambda it: (it["range"]["start"]["line"], it["range"]["start"]["character"]), reverse=True):
        document = changed(document, 1, [{"range": edit["range"], "text": edit["newText"]}])
    return document.text


def renamed(client: Client, uri: str, text: str, line: int, character: int, name: str) -> str | tuple[int, str]:
    """A text after a renaming; the error where there is none."""
    made = client.at("rename", uri, line, character, newName=name)
    return applied(text, made["changes"][uri]) if isinstance(made, dict) else made


def fixes(client: Client, uri: str, text: str, version: int = 1) -> dict[str, str]:
    """What each code action makes of a text, by its title; offered for all its diagnostics."""
    client.open(uri, text, version)
    marks = client.marks(uri)["diagnostics"]
    made: dict[str, str] = {}
    for mark in marks or [{"range": {"start": {"line": 0, "character": 0}, "end": {"line": 0, "character": 0}}}]:
        found = client.ask("textDocument/codeAction", textDocument={"uri": uri}, range=mark["range"],
                           context={"diagnostics": [mark] if marks else []})
        for it in found:
            assert it["diagnostics"] == ([mark] if it["kind"] == "quickfix" else [])
            made[it["title"]] = applied(text, it["edit"]["changes"][uri])
    return made


def test_rename_in_a_job(client: Client) -> None:
    client.open(JOB, SUM)
    made = renamed(client, JOB, SUM, 9, 8, "plus")
    assert isinstance(made, str) and made == SUM.replace("add(", "plus(")
    assert answer(["run"], made) == answer(["run"], SUM) == "6\nhalt\n"
    assert client.at("prepareRename", JOB, 5, 6)["placeholder"] == "i"
    assert client.at("prepareRename", JOB, 0, 3) is None
    # a parameter is one of its procedure alone
    assert renamed(client, JOB, SUM, 1, 9, "s") == SUM.replace("(x, y)", "(s, y)").replace("x + y", "s + y")


@pytest.mark.parametrize("name, why", (
    ("n", "another meaning"), ("s", "another meaning"), ("add", "another meaning"), ("while", "reserved word"),
    ("2x", "no name"), ("", "no name"), ("é", "no name"), ("x" * 65, "no name")))
def test_names_that_are_refused(client: Client, name: str, why: str) -> None:
    client.open(JOB, SUM)
    code, told = client.at("rename", JOB, 5, 6, newName=name)
    assert (code, why in told) == (-32803, True), told


def test_rename_in_an_assembly(client: Client) -> None:
    client.open(ASM, SEVEN)
    made = renamed(client, ASM, SEVEN, 4, 15, "value")
    assert isinstance(made, str) and made == SEVEN.replace("seven", "value")
    assert answer(["exec"], made) == answer(["exec"], SEVEN)
    assert renamed(client, ASM, SEVEN, 2, 8, "first") == SEVEN.replace("block start", "block first")
    assert client.at("rename", ASM, 4, 15, newName="end")[0] == -32803, "there is one of that name"
    assert client.at("rename", ASM, 4, 22, newName="x")[0] == -32803, "a port has no name"
    assert client.at("prepareRename", ASM, 1, 5) is None, "waves go by number"


@pytest.mark.parametrize("wrong, right, title", (
    ("print tota;", "print total;", "write `total`"), ("print total", "print total;", "put `;` before it"),
    ("print total && 1;", "print total & 1;", "write `&` for `&&`"), ("print 0x1F;", "print 31;", "write `31`"),
    ("total += 2;\n  print total;", "total = total + (2);\n  print total;", "write `total = total + ..`"),
    ("total++;\n  print total;", "total = total + 1;\n  print total;", "write `total = total + 1;`"),
    ("print total; // all", "print total; # all", "write `#` for `//`")))
def test_fixes_of_a_job(client: Client, wrong: str, right: str, title: str) -> None:
    text = f"proc main() {{\n  var total;\n  {wrong}\n}}\n"
    made = fixes(client, JOB, text)
    assert made.get(title) == text.replace(wrong, right), made
    assert not answer(["format"], made[title]).startswith("refused")


@pytest.mark.parametrize("right, wrong", (
    ("const", "cnst"), ("seven.0", "sevn.0"), (">.2", ">.1"), ("<., 1", "<2, 1"), ("2, .>", "2, 3>"), ("<1, 2", "<0, 2"),
    ("<., 1, 2>", "<., 1, 3>"), ("wavescalar 2\n", ""), ("wavescalar 2", "wavescalar 1"), ("show.0", "show.0 ; shown"),
    ("7", "-1")))
def test_fixes_of_an_assembly(client: Client, right: str, wrong: str) -> None:
    """Each change that is offered takes its fault away, and one of them gives the text that was spoiled back, or one that
    `wsc check` takes."""
    made = fixes(client, ASM, SEVEN.replace(right, wrong, 1))
    assert any(answer(["check"], it) == answer(["check"], SEVEN) for it in made.values()), made


@needs_linker
def test_notes_of_a_draft(client: Client) -> None:
    """The linker's notes are put into the draft, with its comments and its names."""
    text = UNLINKED.replace("show:", "# prints\nshow:").replace("stop", "stop  # over")
    made = fixes(client, DRAFT, text)
    title = "give the memory operations their notes (wsl)"
    assert made[title] == SEVEN.replace("show:", "# prints\nshow:").replace("stop", "stop  # over")
    draft = (EXAMPLES / "notebooks" / "echo.draft").read_text()
    made = fixes(client, "file:///work/echo.draft", draft)
    assert answer(["check"], made[title]) == answer(["check"], SEVEN), "a no-op more stands in its place"


@needs_linker
def test_verdict_of_a_draft(client: Client) -> None:
    assert verdict(WSL, UNLINKED) == ""
    assert verdict("/nowhere/wsl", UNLINKED) == ""
    wrong = UNLINKED.replace(" end.0", "")
    assert verdict(WSL, wrong) == "refused port 4 0"
    client.open(DRAFT, wrong)
    assert places(client.marks(DRAFT)) == [(7, 0, 3, "port")], "the linker and the linter tell one fault"


def test_a_verdict_that_the_linter_has_not(tmp_path: Any) -> None:
    """What the linker alone refuses is told at its line."""
    linker = tmp_path / "wsl"
    linker.write_text("#!/bin/sh\ncat >/dev/null\necho refused trigger 1\nexit 2\n")
    linker.chmod(0o755)
    made = Client("--delay", "0.05", "--wsl", str(linker))
    try:
        made.start()
        made.open(DRAFT, UNLINKED)
        found = made.marks(DRAFT)
        assert places(found) == [(2, 0, 5, "trigger")]
        assert "needs a no-op" in found["diagnostics"][0]["message"]
    finally:
        made.close()


def test_hover_has_wave_block_and_note(client: Client) -> None:
    client.open(ASM, SEVEN)
    told = client.at("hover", ASM, 6, 1)["contents"]["value"]
    assert told.endswith("wave 1, block start, instruction 3 of 4 in the block, memory operation 1 of 2 in the wave's text")
    told = client.at("hover", ASM, 6, 14)["contents"]["value"]
    assert "Number 1 in its wave. Before it: nothing" in told and "memory operation 1 of 2" in told
    assert client.at("hover", ASM, 8, 1)["contents"]["value"].endswith("wave 1, block start")


def colours(data: list[int], text: str) -> list[tuple[str, str]]:
    """The coloured parts of a text of ASCII, each with its type."""
    assert len(data) % 5 == 0
    lines, line, column, made = text.split("\n"), 0, 0, []
    for at in range(0, len(data), 5):
        ahead, right, width, kind, more = data[at:at + 5]
        line, column = line + ahead, right if ahead else column + right
        made.append((lines[line][column:column + width], TYPES[kind] + (f" {MODIFIERS[0]}" if more else "")))
    return made


def test_colours(client: Client) -> None:
    client.open(JOB, SUM)
    made = colours(client.ask("textDocument/semanticTokens/full", textDocument={"uri": JOB})["data"], SUM)
    assert made[:7] == [("# adds up", "comment"), ("proc", "keyword"), ("add", "function declaration"),
                        ("x", "parameter declaration"), ("y", "parameter declaration"), ("return", "keyword"), ("x", "parameter")]
    assert made[-1] == ("%input", "macro") and ("s", "variable") in made and ("add", "function") in made
    client.open(ASM, SEVEN)
    made = colours(client.ask("textDocument/semanticTokens/full", textDocument={"uri": ASM})["data"], SEVEN)
    assert made[:6] == [("wavescalar", "keyword"), ("2", "number"), ("wave", "keyword"), ("1", "number"), ("block", "keyword"),
                        ("start", "namespace declaration")]
    assert ("<., 1, 2>.1", "decorator") in made and ("out", "function") in made and ("in", "variable declaration") in made
    line = {"start": {"line": 5, "character": 0}, "end": {"line": 6, "character": 0}}
    part = client.ask("textDocument/semanticTokens/range", textDocument={"uri": ASM}, range=line)["data"]
    assert [it for it, _ in colours(part, SEVEN)][:3] == ["seven", "const", "7"]


def test_colours_count_in_utf16(client: Client) -> None:
    client.open(JOB, "# 𝄞é\nproc main() { }\n")
    data = client.ask("textDocument/semanticTokens/full", textDocument={"uri": JOB})["data"]
    assert data[:3] == [0, 0, 5]


def test_lines_of_changed_texts() -> None:
    """Where lines begin after changes by lot is what reading the text anew says."""
    lot = random.Random(5)
    document = Document("", 0, "job", "a\r\nb\rc\n\nd")
    for version in range(1, 400):
        count = len(document.text)
        begin = lot.randint(0, count)
        span = [document.place(at) for at in (begin, min(count, begin + lot.randint(0, 4)))]
        new = "".join(lot.choice("\r\n\rx𝄞\n") for _ in range(lot.randint(0, 5)))
        document = changed(document, version, [{"range": {"start": span[0], "end": span[1]}, "text": new}])
        anew = Document("", 0, "job", document.text)
        assert (document.starts, document.own_starts) == (anew.starts, anew.own_starts), repr(document.text)


def test_changes_of_large_texts() -> None:
    """After changes by lot a text that is kept as its lines has the same lines as one that is kept whole."""
    lot = random.Random(6)
    for first in ("a\r\nb\rc\n\nd", "", "x\n", "é\x0b\u2028\r"):
        document = Document("", 0, "job", first)
        text = LargeText(document)
        for version in range(1, 400):
            count = len(document.text)
            begin = lot.randint(0, count)
            places = [document.place(at) for at in (begin, min(count, begin + lot.randint(0, 4)))]
            if lot.random() < 0.1:
                places[1] = {"line": places[1]["line"] + lot.randint(0, 2), "character": 90}
            new = "".join(lot.choice("\r\n\rx𝄞\n\x0b") for _ in range(lot.randint(0, 5)))
            changes: list[dict[str, Any]] = [{"range": {"start": places[0], "end": places[1]}, "text": new}]
            if lot.random() < 0.02:
                changes = [{"text": new}, *changes]
            document = changed(document, version, changes)
            text.change(version, changes)
            assert (text.text, len(text), text.version) == (document.text, len(document.starts), version)
            low = lot.randint(0, len(text))
            part, number = text.part(low, low + lot.randint(0, 3))
            assert document.text.startswith(part.text, document.starts[number]) and number == min(low, len(text) - 1)


def test_what_lines_tell() -> None:
    """What is told of a few lines of a large text is what the whole of it tells."""
    document = Document("file:///a.asm", 1, "assembly", "# é𝄞\n" + large(3000))
    text, said = LargeText(document), AssemblyText(document)
    for first in range(-1, len(text) + 1, 3):
        range_ = {"start": {"line": max(first, 0), "character": 0}, "end": {"line": first + 5, "character": 0}}
        begin, end = (document.offset(range_[edge]) for edge in ("start", "end"))
        data = glances.colours(text, {"range": range_})["data"]
        assert data[:5 * 3] == colours_of(document, said, (begin, end))[:5 * 3]
    told = 0
    for line in range(len(text)):
        for character in (0, 4, 9, 12, 30):
            params = {"position": {"line": line, "character": character}}
            found = glances.hover(text, params)
            wanted = said.hover(document.offset(params["position"]))
            if found and wanted:
                assert found["range"] == document.range(wanted.span)
                told += 1
    assert told > 100


def large(size: int) -> str:
    """A sound assembly of about so many characters: waves in a chain, each prints 25 values."""
    made, count, wave = ["wavescalar 2"], 0, 0
    while count < size:
        wave += 1
        lines = [f"wave {wave}", f"block b{wave}", *(["pad 0 a1.0"] if wave == 1 else []), f"a{wave}: advance -> w{wave}x0.0"]
        for at in range(25):
            behind = f"w{wave}x{at + 1}.0" if at < 24 else f"a{wave + 1}.0"
            lines += [f"w{wave}x{at}: merge -> w{wave}y{at}.0 w{wave}y{at}.1 {behind}", f"w{wave}y{at}: add -> w{wave}o{at}.0",
                      f"w{wave}o{at}: out <{at or '.'}, {at + 1}, {at + 2 if at < 24 else '.'}>.{at + 1}"]
        lines.append(f"go b{wave + 1}")
        made += lines
        count += sum(len(line) + 1 for line in lines)
    wave += 1
    last = [f"wave {wave}", f"block b{wave}", f"a{wave}: advance -> end.0", "end: halt <., 1, .>.1", "stop", "end", ""]
    return "\n".join([*made, *last])


BIG = "file:///work/big.asm"


def test_a_change_is_cheap() -> None:
    """A change of 5 MB, and what is told of its place, takes less than a tenth of a second of processor, each of 20 times."""
    text = LargeText(Document(BIG, 1, "assembly", large(5000000)))
    times = []
    for count in range(20):
        line = count * len(text) // 20
        place = {"line": line, "character": 0}
        range_ = {"start": place, "end": {"line": line + 60, "character": 0}}
        begun = time.process_time()
        text.change(count + 2, [{"range": {"start": place, "end": place}, "text": "# a line\n"}])
        told = glances.hover(text, {"position": {"line": line + 1, "character": 12}})
        data = glances.colours(text, {"range": range_})["data"]
        times.append(time.process_time() - begun)
        assert data[:5] == [line, 0, 8, TYPES.index("comment"), 0]
        assert told is None or told["range"]["start"]["line"] == line + 1
    assert max(times) < 0.1, times


def test_a_large_text(client: Client) -> None:
    """It has a process of its own: what is asked of it meanwhile is answered by its line alone, a small text is served as
    ever, and what is asked of names is answered once it is read."""
    text = large(400000)
    client.open(BIG, text)
    told = client.at("hover", BIG, 5, 8)["contents"]["value"]
    assert "it spreads long lists" in told
    found = client.at("completion", BIG, 5, 8)
    assert {"add", "merge"} <= {it["label"] for it in (found["items"] if isinstance(found, dict) else found)}
    client.open(JOB, SUM)
    assert starts(client.at("definition", JOB, 9, 9)) == [(1, 5)]
    assert client.marks(JOB)["diagnostics"] == []
    assert client.marks(BIG)["diagnostics"] == []
    assert starts(client.at("definition", BIG, 6, 1)) == [(6, 0)]
    client.change(BIG, 2, {"range": {"start": {"line": 5, "character": 10}, "end": {"line": 5, "character": 11}}, "text": ""})
    marks = client.marks(BIG)
    assert (marks["version"], places(marks)[0]) == (2, (5, 6, 10, "line"))
    found = client.ask("textDocument/codeAction", textDocument={"uri": BIG}, range=marks["diagnostics"][0]["range"],
                       context={"diagnostics": marks["diagnostics"][:1]})
    assert "write `merge`" in [it["title"] for it in found]
    client.tell("textDocument/didClose", textDocument={"uri": BIG})
    assert client.marks(BIG)["diagnostics"] == []
    assert client.end() == 0


def test_stale_and_cancelled_requests() -> None:
    """A request about a text that changes behind it, or that is cancelled, is answered with its error."""
    client = Client("--delay", "0.05", "--large", "0")
    try:
        client.start()
        client.open(BIG, large(150000))
        client.at("hover", BIG, 5, 8)
        client.change(BIG, 2, {"text": large(200000)})
        client.send(id="a", method="textDocument/documentSymbol", params={"textDocument": {"uri": BIG}})
        client.send(id="b", method="textDocument/documentSymbol", params={"textDocument": {"uri": BIG}})
        client.send(id="c", method="textDocument/documentSymbol", params={"textDocument": {"uri": BIG}})
        client.tell("$/cancelRequest", id="b")
        client.change(BIG, 3, {"text": SEVEN})
        got = {it["id"]: it for it in (client.answers.get(timeout=PATIENCE) for _ in range(3))}
        assert got["c"]["error"]["code"] == -32801
        assert got["b"]["error"]["code"] in (-32800, -32801)
        assert starts(client.at("definition", BIG, 4, 15)) == [(5, 0)]
    finally:
        client.close()


HARD: tuple[bytes, ...] = (
    b"Content-Length: " + b"9" * 6000 + b"\r\n\r\n", b"Content-Length: -5\r\n\r\n", b"\x00\xff\r\n\r\n",
    b'Content-Length: 2\r\n\r\n""', b"Content-Length: 4\r\n\r\nnull")


def test_hard_messages(client: Client) -> None:
    """None ends the server: headers that are none, positions that are nowhere, parameters of other kinds, digits without end."""
    for raw in HARD:
        client.raw(raw)
        assert client.answers.get(timeout=PATIENCE)["error"]["code"] == -32700, raw[:30]
    client.open(JOB, "proc main() { print " + "7" * 6000 + "; } # ²\n%input\n" + "1" * 6000 + "\n")
    assert [it["code"] for it in client.marks(JOB)["diagnostics"]] == ["wide"]
    for line, character in ((0, 21), (0, 10 ** 9), (10 ** 9, 0), (-1, -1), (2, 5)):
        for method in ("hover", "definition", "completion", "prepareRename"):
            made = client.at(method, JOB, line, character)
            assert not isinstance(made, tuple), (method, line, character, made)
    wrong: tuple[Any, ...] = (None, [], {"textDocument": None}, {"textDocument": {"uri": 7}}, {"textDocument": {"uri": JOB}},
                   {"textDocument": {"uri": JOB}, "position": {"line": "a", "character": None}})
    for params in wrong:
        for method in ("hover", "rename", "codeAction", "completion"):
            client.number += 1
            client.send(id=client.number, method=f"textDocument/{method}", params=params)
            assert client.answers.get(timeout=PATIENCE)["error"]["code"] == -32602
    client.open(JOB, "proc main() { print 1; } # \ud800\n", 2)
    client.marks(JOB)
    client.open(ASM, "wavescalar 2\nwave 1\n²: add -> ³.²\n" * 3)
    client.marks(ASM)
    assert client.end() == 0


def test_many_faults(client: Client) -> None:
    """No more than a thousand are told."""
    client.open(ASM, "wavescalar 2\nwave 1\nblock 1\n" + "no line\n" * 1500)
    found = client.marks(ASM)["diagnostics"]
    assert len(found) == 1001 and found[-1]["message"].endswith("faults more")


def test_the_program_is_asked(client: Client) -> None:
    assert WSC and not answer(["check"], large(2000)).startswith("refused")
