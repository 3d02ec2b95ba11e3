"""Draw what `wsc compile` or `wsc trace` prints, as one HTML page that needs no other file.

FILE is a job, or an assembly with or without the sections %input and %trace; without FILE, standard input is read. wsc
compiles a job, and traces what has no trace. PAGE is by default FILE with the ending .html, or standard output without
FILE.
"""

import functools
import json
import pathlib
import sys
from typing import Any

from wavescalar.cli import Line, add_program, given, whole
from wavescalar.numbered import Image, kind_of, read, sections
from wavescalar.programs import assembly_of, call, refusal, traced, with_input
from wavescalar.reader import lines_of
from wavescalar.viewer.scripts import bundled, modules
from wavescalar.viewer.statements import statements_of

HERE = pathlib.Path(__file__).resolve().parent
SCRIPTS = ("colours.js", "draw.js", "steps.js", "inside.js", "play.js")
# In which way a page's steps are made: `trace`, `rounds`, `none`, or the elements and waves of a grid.
Way = str | tuple[int, int]
# The usual size of a grid and its waves in flight, and the most firings on one.
ELEMENTS, WAVES, BUDGET = 16, 4, 100000


def units(text: str, place: int) -> int:
    """A place in bytes as one in the units that a page counts a text by."""
    front = text.encode(errors="surrogateescape")[:place].decode(errors="replace")
    return len(front.encode("utf-16-le")) // 2


def found_of(program: str | None, job: str, image: Image) -> dict[str, Any]:
    """What the program is found to make of the statements of a job: a file has no program that could be asked."""
    ends, said = statements_of(program, job, image) if job and program else ([], {})
    return {"statements": [[units(job, place) for place in both] for both in ends], "said": said}


def order_of(way: Way) -> str:
    """The name of an order, as orders.js has it; nothing where no event is to happen."""
    if isinstance(way, tuple):
        return f"grid-{way[0]}-{way[1]}"
    return "" if way == "none" else way


def written(data: Any) -> str:
    """Data as it may stand in a page."""
    return json.dumps(data, separators=(",", ":")).replace("<", "\\u003c")


def filled(title: str, data: dict[str, Any] | None) -> str:
    """A page that needs no other file; without data it is one that another page fills, in a frame."""
    scripts = [bundled(modules(), "file.js", "pageOf")] if data else []
    scripts += [(HERE / name).read_text() for name in SCRIPTS]
    parts = {"@TITLE@": title.replace("&", "&amp;").replace("<", "&lt;"),
             "@STYLE@": f"<style>\n{(HERE / 'page.css').read_text()}</style>",
             "@SCRIPTS@": f"<script>\n{''.join(scripts)}</script>", "@DATA@": written(data) if data else ""}
    made = (HERE / "page.html").read_text()
    for mark, part in parts.items():
        made = made.replace(mark, part)
    return made


def page(text: str, title: str, most: int, job: str = "", program: str | None = None, way: Way = "trace") -> str:
    """The page of a text, which steps through at most so many events. The job that it was made of stands in it too; with a
    program its statements are looked for."""
    image, job = read(text), "\n".join(lines_of(job))
    return filled(title, {"text": text, "job": job, "order": order_of(way), "most": most, "budget": BUDGET,
                          "found": found_of(program, job, image)})


def is_run(program: str, text: str) -> None:
    """Ends this with the program's refusal of an assembly that it doesn't run."""
    own = with_input("\n".join(sections(text)[0][0]).rstrip("\n") + "\n", text)
    status, made, errors = call(program, ["trace", "--budget", "0"], own)
    if status not in (0, 3, 8):
        raise refusal("trace", status, made, errors)


def sizes_of(image: Image, way: Way, most: int) -> str:
    """How large an image is, and how many events of its trace are shown."""
    events = f", {min(len(image.trace or ()), most)} events" if way == "trace" else ""
    return f"{len(image.instrs) - 1} instructions, {image.waves} waves{events}"


def main() -> int:
    ask = Line(__doc__)
    ask.add_argument("file", metavar="FILE", nargs="?", help="a job, an assembly or a trace")
    ask.add_argument("-o", "--out", metavar="PAGE", help="the file of the page")
    ask.add_argument("--title", metavar="TEXT", help="the page's title (the file's name)")
    ask.add_argument("--events", metavar="N", type=int, default=20000, help="show at most N events (20,000)")
    ask.add_argument("--rounds", action="store_true", help="show rounds of all events that can happen, not the trace")
    ask.add_argument("--graph", action="store_true", help="show only the graph: nothing is traced")
    ask.add_argument("--elements", metavar="N", type=int, help="show cycles of a clocked grid with N elements (16)")
    ask.add_argument("--waves", metavar="N", type=int, help="show cycles of a grid with N waves in flight (4)")
    add_program(ask)
    line = ask.parse_args()
    if line.rounds + line.graph + (line.elements is not None or line.waves is not None) > 1:
        ask.error("--rounds, --graph and a grid (--elements, --waves) are three ways: one at a time")
    text = given(line.file)
    job = text if kind_of(text) == "job" else ""
    way: Way = "none" if line.graph else "rounds" if line.rounds else "trace"
    if line.elements is not None or line.waves is not None:
        way = ELEMENTS if line.elements is None else line.elements, WAVES if line.waves is None else line.waves
        if not (1 <= int(way[0]) <= 64 and int(way[1]) >= 1):
            ask.error("a grid has 1 to 64 elements and at least one wave")
    text = traced(line.wsc, text, line.events) if way == "trace" else assembly_of(line.wsc, text)
    if isinstance(way, tuple):
        is_run(line.wsc, text)
    file = line.file if line.file != "-" else None
    title = line.title or (pathlib.Path(file).stem if file else "wsc")
    made, image = page(text, title, line.events, job, line.wsc, way), read(text)
    out = line.out or (pathlib.Path(file).with_suffix(".html") if file else None)
    if out:
        pathlib.Path(out).write_text(made, errors="replace")
        print(f"{out}: {sizes_of(image, way, line.events)}", file=sys.stderr)
    else:
        sys.stdout.write(made)
    if way == "trace" and len(image.trace or ()) > line.events:
        print(f"{pathlib.Path(sys.argv[0]).name}: only the first {line.events} events are shown (--events N shows more)",
              file=sys.stderr)
    return 0


tool = functools.partial(whole, main, images=True)

if __name__ == "__main__":
    sys.exit(tool())
