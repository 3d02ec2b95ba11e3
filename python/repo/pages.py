"""Makes the pages of docs/pages, which need neither the program nor a network: `python/run repo.pages [--wsc PROGRAM]`.

Each holds its own text, compressed, and writes itself once it is opened, in any browser of 2023 or later. With `--check`
nothing is written, and it is told which pages aren't as they would be made.
"""

import base64
import re
import sys
import zlib

from wavescalar.cli import Line, add_program, whole
from wavescalar.programs import ROOT, assembly_of, traced
from wavescalar.numbered import read
from wavescalar.viewer.orders import order_of, replayed, title_of
from wavescalar.viewer.scripts import bundled, modules
from wavescalar.viewer.view import HERE as VIEW, Way, filled, found_of, page, written

PLACE = ROOT / "docs" / "pages"

# For each page its job and the order of its events.
PAGES: dict[str, tuple[str, Way]] = {
    "sum": ("examples/sum.job", "trace"), "calls": ("examples/viewer/calls.job", "trace"),
    "order": ("examples/order.job", "rounds"), "turns": ("examples/viewer/turns.job", (4, 4)),
}
# The page of two orders: its job, its two orders, and its name.
TWO, ORDERS, TWO_NAME = "examples/sum.job", ("trace", "random-1"), "two-orders"
# Events of a page at most.
MOST = 20000
SHELL = """<!doctype html><html lang="en"><meta charset="utf-8"><meta name="viewport" content="width=device-width">
<title>@TITLE@</title><p id="wait">This page needs JavaScript, and a browser of 2023 or later.</p><script>
(async () => {
const bytes = Uint8Array.from(atob("@DATA@"), c => c.charCodeAt(0));
const whole = new Blob([bytes]).stream().pipeThrough(new DecompressionStream("deflate"));
const text = await new Response(whole).text();
document.open(); document.write(text); document.close();
})();
</script></html>
"""
# The page of two orders: parts of that of serve.py, and what is told of the program.
BOTH = """<!doctype html><html lang="en"><meta charset="utf-8"><meta name="viewport" content="width=device-width">
<title>One program in two orders</title><style>@STYLE@
main { grid-template-columns: 230px minmax(0, 1fr); } #left { padding: 8px 12px; overflow: auto; }
#left p { margin-top: 6px; }</style>
<header><h1>One program in two orders</h1></header>
<main><section id="left"><pre>@JOB@</pre>@ORDERS@<p>Both make the same events, step together, and print the
same words: that is proved for every program, input and order. Keys: → ← Home End Space, s, r.</p></section>@SIDES@</main>@FOOT@
<script>@MODULES@</script>
<script>const $ = id => document.getElementById(id), told = twoOf(@TEXTS@); window.FRAME = @FRAME@;</script>
<script>@SCRIPT@</script>
<script>told.runs.forEach((it, k) => { document.querySelectorAll(".order")[k].textContent = it.title; });
fillBoth(told, SIDES);</script></html>"""


def small(text: str) -> str:
    """A page without what a reader of its scripts alone wants: indents, and lines that are comments."""
    lines = (line.strip() for line in text.splitlines())
    return "\n".join(line for line in lines if line and not line.startswith("//"))


def packed(title: str, text: str) -> str:
    """The page that writes this one."""
    data = base64.b64encode(zlib.compress(text.encode(errors="replace"), 9)).decode()
    return SHELL.replace("@TITLE@", title).replace("@DATA@", data)


def unpacked(made: str) -> str:
    """What such a page writes, behind its own text: zlib's packing isn't the same everywhere."""
    data = re.search(r'atob\("([^"]*)"\)', made)
    return made.replace(data[1], "") + zlib.decompress(base64.b64decode(data[1])).decode() if data else ""


def part_of(text: str, begin: str, end: str) -> str:
    """A part of a page, without its end."""
    return text[text.index(begin) : text.index(end)]


def two_of(program: str) -> str:
    """The page with two orders of one program."""
    job, front = (ROOT / TWO).read_text(), (VIEW / "serve.html").read_text()
    assembly = assembly_of(program, job)
    texts = {"text": traced(program, job, MOST), "job": job, "orders": ORDERS, "most": MOST,
             "replayed": [replayed(order_of(name, assembly, program, MOST), assembly, program) for name in ORDERS],
             "found": found_of(program, job, read(assembly))}
    parts = {
        "STYLE": (VIEW / "serve.css").read_text(), "JOB": job.replace("<", "&lt;").replace(" ", "&#32;"),
        "ORDERS": "".join(f"<p>{side}: {title_of(name)}</p>" for side, name in zip("AB", ORDERS)),
        "SIDES": part_of(front, '<section id="sides"', '<div id="help"') + "</section>",
        "FOOT": part_of(front, "<footer>", "</footer>") + "</footer>",
        "SCRIPT": (VIEW / "colours.js").read_text() + (VIEW / "both.js").read_text(),
        "FRAME": written(small(filled("order", None))), "TEXTS": written(texts),
        "MODULES": bundled(modules(), "file.js", "twoOf"),
    }
    made = BOTH
    for name, part in parts.items():
        made = made.replace(f"@{name}@", part)
    return made


def page_of(name: str, program: str) -> str:
    """A page of one run."""
    file, way = PAGES[name]
    text = (ROOT / file).read_text()
    made = traced(program, text) if way == "trace" else assembly_of(program, text)
    return page(made, name, MOST, text, program, way)


def made_by(program: str) -> dict[str, str]:
    """All pages, by their names."""
    made = {name: packed(name, small(page_of(name, program))) for name in PAGES}
    return made | {TWO_NAME: packed("One program in two orders", small(two_of(program)))}


def main() -> int:
    ask = Line(__doc__)
    ask.add_argument("--check", action="store_true", help="tells which pages are other ones, and writes none")
    add_program(ask)
    line = ask.parse_args()
    made = {PLACE / f"{name}.html": text for name, text in made_by(line.wsc).items()}
    if not line.check:
        for file, text in made.items():
            file.write_text(text)
        return 0
    kept = {file: file.read_text() for file in PLACE.glob("*.html")}
    wrong = sorted(file.name for file in {*made, *kept} if unpacked(made.get(file, "")) != unpacked(kept.get(file, "")))
    print("\n".join([*(f"{name} isn't as python/run repo.pages makes it" for name in wrong),
                     f"{len(made)} ready pages, {len(wrong)} wrong"]))
    return 1 if wrong else 0


if __name__ == "__main__":
    sys.exit(whole(main))
