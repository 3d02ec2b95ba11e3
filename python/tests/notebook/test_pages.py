"""The pages of the notebooks: whole, without anything from elsewhere, and with links that lead somewhere."""

from __future__ import annotations

import json
from html.parser import HTMLParser

from repo.notebook_pages import HOME, inline, link_of, markdown, pages
from tests.places import ROOT

VOID = {"meta", "img", "br", "hr"}


class Whole(HTMLParser):
    """Reads a page: each tag is closed; what it links and shows."""

    def __init__(self) -> None:
        super().__init__()
        self.open: list[str] = []
        self.links: list[str] = []
        self.sources: list[str] = []
        self.words = ""

    def handle_starttag(self, tag: str, attrs: list[tuple[str, str | None]]) -> None:
        if tag not in VOID:
            self.open.append(tag)
        self.links += [value for name, value in attrs if (tag, name) == ("a", "href") and value]
        self.sources += [value for name, value in attrs if name == "src" and value]

    def handle_endtag(self, tag: str) -> None:
        assert self.open and self.open.pop() == tag, f"</{tag}> at {self.getpos()}"

    def handle_data(self, data: str) -> None:
        if "pre" not in self.open and "style" not in self.open:
            self.words += data


def test_pages_are_whole() -> None:
    made = pages()
    assert len(made) == 6
    for name, page in made.items():
        read = Whole()
        read.feed(page)
        assert not read.open, name
        assert all(it.startswith("data:") for it in read.sources), name
        for link in read.links:
            path = link.partition("#")[0]
            there = ROOT / "pages" / "notebooks" / path
            assert path in made or there.resolve().exists(), f"{name}: {link}"
        assert "](" not in read.words and "**" not in read.words and "```" not in read.words, name


def test_pages_have_all_of_a_notebook() -> None:
    """Each cell of code with its outputs, and each folded solution."""
    for file in sorted(HOME.glob("[0-9]*.ipynb")):
        page = pages()[f"{file.stem}.html"]
        cells = json.loads(file.read_text())["cells"]
        code = [it for it in cells if it["cell_type"] == "code"]
        assert page.count('<pre class="in">') == len(code)
        assert page.count('<div class="out">') == sum(bool(it["outputs"]) for it in code)
        assert page.count("<details>") == page.count("</details>") == sum("<details>" in "".join(it["source"]) for it in cells)


def test_markdown() -> None:
    assert inline("a *b* **c** `*d*` [e `f`](g.ipynb#h) 2 * 3 * 4 <") == (
        'a <i>b</i> <b>c</b> <code>*d*</code> <a href="g.html#h">e <code>f</code></a> 2 * 3 * 4 &lt;')
    assert list(markdown("# A\nb\nc\n\n- d\n  e\n- f\n\n| g | h |\n|---|---|\n| `i` | j |\n\n```\n<k>\n```\n")) == [
        "<h1>A</h1>", "<p>b c</p>", "<ul><li>d e</li><li>f</li></ul>",
        "<table><thead><tr><th>g</th><th>h</th></tr></thead><tbody><tr><td><code>i</code></td><td>j</td></tr></tbody></table>",
        "<pre><code>&lt;k&gt;</code></pre>"]
    assert [link_of(it) for it in ("../backend/tac.py", "../../docs/A.md#b", "2-memory.ipynb", "https://a.b/c")] == [
        "../../examples/backend/tac.py", "../../docs/A.md#b", "2-memory.html", "https://a.b/c"]
