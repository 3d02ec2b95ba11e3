"""Makes pages of the notebooks, for those who have no Jupyter: python/run repo.notebook_pages FOLDER

Each notebook becomes one page, with the outputs that it keeps, its drawings and its folded solutions; `index.html` lists them.
No program is run and nothing is fetched: the same notebooks give the same pages, byte for byte. `./release` packs them.
The links of a page count from FOLDER two folders below the top of the repository, as pages/notebooks of the archive.
"""

from __future__ import annotations

import json
import pathlib
import re
import sys
from collections.abc import Iterator
from html import escape
from typing import Any

from wavescalar.programs import ROOT

HOME = ROOT / "examples" / "notebooks"
STYLE = """
body { font: 16px/1.5 "DejaVu Sans", "Segoe UI", Verdana, sans-serif; color: #1f2a33; max-width: 60rem; margin: 1rem auto;
  padding: 0 1rem; }
pre { font: 14px/1.4 "DejaVu Sans Mono", Consolas, monospace; overflow-x: auto; padding: 0.5rem 0.8rem; margin: 0.5rem 0; }
pre.in { background: #f3f5f7; border-left: 4px solid #0072b2; }
code { font-family: "DejaVu Sans Mono", Consolas, monospace; font-size: 90%; background: #f3f5f7; }
pre code { background: none; font-size: 100%; }
.out { border-left: 4px solid #cfd6dd; padding-left: 0.5rem; margin-bottom: 1rem; overflow-x: auto; }
table { border-collapse: collapse; } td, th { padding: 0.15rem 0.6rem; border-bottom: 1px solid #e3e7ea; }
details { margin: 0.5rem 0; } img { max-width: 100%; } nav { margin: 1rem 0; }
"""
PAGE = """<!DOCTYPE html>
<html lang="en">
<head>
<meta charset="utf-8">
<meta name="viewport" content="width=device-width, initial-scale=1">
<title>{title}</title>
<style>{style}</style>
</head>
<body>
{body}
</body>
</html>
"""
SPAN = re.compile(r"`([^`]+)`|\[((?:[^\[\]`]|`[^`]*`)+)\]\(([^()\s]+)\)|\*\*(.+?)\*\*|\*([^\s*](?:[^*]*[^\s*])?)\*")
ITEM = re.compile(r"(?:[-*]|\d+\.) +")


def text_of(part: Any) -> str:
    """A text that a notebook may hold as lines."""
    return "".join(part) if isinstance(part, list) else str(part)


def link_of(target: str) -> str:
    """A link of a notebook, which stands in examples/notebooks, as one of its page."""
    if re.match(r"[a-z]+:|#|\.\./\.\./", target):
        return target
    if target.startswith("../"):
        return f"../../examples/{target.removeprefix('../')}"
    path, mark, part = target.partition("#")
    if path.endswith(".ipynb"):
        return f"{path.removesuffix('.ipynb')}.html{mark}{part}"
    return f"../../examples/notebooks/{target}"


def inline(text: str) -> str:
    """A line of Markdown: code, links, bold and italic words."""
    made, done = "", 0
    for found in SPAN.finditer(text):
        made += escape(text[done:found.start()], quote=False)
        code, named, target, bold, slanted = found.groups()
        if code is not None:
            made += f"<code>{escape(code, quote=False)}</code>"
        elif target is not None:
            made += f'<a href="{escape(link_of(target))}">{inline(named)}</a>'
        else:
            made += f"<b>{inline(bold)}</b>" if bold is not None else f"<i>{inline(slanted)}</i>"
        done = found.end()
    return made + escape(text[done:], quote=False)


def table(lines: list[str]) -> str:
    """A table of Markdown: its first line is the head, its second a rule."""
    rows = [[cell.strip() for cell in re.split(r"(?<!\\)\|", line.strip().strip("|"))] for line in lines]
    head = "".join(f"<th>{inline(cell)}</th>" for cell in rows[0])
    body = "".join("<tr>" + "".join(f"<td>{inline(cell)}</td>" for cell in row) + "</tr>" for row in rows[2:])
    return f"<table><thead><tr>{head}</tr></thead><tbody>{body}</tbody></table>"


def items(lines: list[str]) -> str:
    """A list of Markdown; a line that begins no item goes on with the one before."""
    made: list[str] = []
    for line in lines:
        if found := ITEM.match(line):
            made.append(line[found.end():])
        else:
            made[-1] += f" {line.strip()}"
    kind = "ol" if lines[0][0].isdigit() else "ul"
    return f"<{kind}>" + "".join(f"<li>{inline(it)}</li>" for it in made) + f"</{kind}>"


def markdown(text: str) -> Iterator[str]:
    """The parts of a text in Markdown, as far as the notebooks use it: headings, paragraphs, lists, tables, code, `details`."""
    lines, at = text.split("\n"), 0
    while at < len(lines):
        begin, line = at, lines[at]
        at += 1
        if line.startswith("```"):
            while at < len(lines) and not lines[at].startswith("```"):
                at += 1
            yield f"<pre><code>{escape(chr(10).join(lines[begin + 1:at]), quote=False)}</code></pre>"
            at += 1
        elif re.match(r"</?(?:details|summary)", line):
            yield line
        elif found := re.match(r"(#{1,6}) +(.*)", line):
            yield f"<h{len(found[1])}>{inline(found[2])}</h{len(found[1])}>"
        elif line.strip():
            while at < len(lines) and lines[at].strip() and not re.match(r"#{1,6} |```|</?details", lines[at]):
                if not ITEM.match(line) and line[0] != "|" and (ITEM.match(lines[at]) or lines[at][0] == "|"):
                    break
                at += 1
            part = lines[begin:at]
            yield table(part) if line.startswith("|") else items(part) if ITEM.match(line) else f"<p>{inline(' '.join(part))}</p>"


def output(one: dict[str, Any]) -> str:
    """What a cell printed, showed or gave."""
    if one["output_type"] == "stream":
        return f"<pre>{escape(text_of(one['text']).rstrip(chr(10)), quote=False)}</pre>"
    if one["output_type"] == "error":
        return f"<pre>{escape(one['ename'])}: {escape(one['evalue'])}</pre>"
    if html := one["data"].get("text/html"):
        return text_of(html)
    return f"<pre>{escape(text_of(one['data'].get('text/plain', '')), quote=False)}</pre>"


def cell(one: dict[str, Any]) -> Iterator[str]:
    """A cell of a notebook, with its outputs."""
    source = text_of(one["source"])
    if one["cell_type"] == "markdown":
        yield from markdown(source)
        return
    yield f'<pre class="in">{escape(source, quote=False)}</pre>'
    if one["outputs"]:
        yield '<div class="out">' + "\n".join(map(output, one["outputs"])) + "</div>"


def title_of(notebook: dict[str, Any]) -> str:
    """Its first heading."""
    return text_of(notebook["cells"][0]["source"]).partition("\n")[0].lstrip("# ")


def pages() -> dict[str, str]:
    """All pages, by the names of their files."""
    found = {file.stem: json.loads(file.read_text()) for file in sorted(HOME.glob("[0-9]*.ipynb"))}
    names = list(found)
    made = {}
    for at, (name, notebook) in enumerate(found.items()):
        near = [("index", "all notebooks"), *((it, it) for it in names[max(at - 1, 0):at] + names[at + 1:at + 2])]
        nav = "<nav>" + " · ".join(f'<a href="{it}.html">{told}</a>' for it, told in near) + "</nav>"
        parts = [nav, *(part for one in notebook["cells"] for part in cell(one)), nav]
        made[f"{name}.html"] = PAGE.format(title=escape(title_of(notebook)), style=STYLE, body="\n".join(parts))
    rows = "".join(f'<li><a href="{name}.html">{inline(title_of(notebook))}</a></li>' for name, notebook in found.items())
    body = ("<h1>Notebooks</h1>\n<p>A course in WaveScalar, as it was run. <a href=\"../../docs/NOTEBOOKS.md\">NOTEBOOKS.md</a>"
            f" says how to run it yourself.</p>\n<ul>{rows}</ul>")
    made["index.html"] = PAGE.format(title="Notebooks", style=STYLE, body=body)
    return made


def main() -> int:
    """Writes the pages: status 1 where the line is none."""
    if len(sys.argv) != 2 or sys.argv[1].startswith("-"):
        print((__doc__ or "").strip())
        return 0 if sys.argv[1:] in (["-h"], ["--help"]) else 1
    folder = pathlib.Path(sys.argv[1])
    folder.mkdir(parents=True, exist_ok=True)
    for name, page in pages().items():
        (folder / name).write_text(page)
    return 0


if __name__ == "__main__":
    sys.exit(main())
