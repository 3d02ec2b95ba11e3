"""Makes the site of ./web: `python/run repo.site.make FOLDER MODULE ..` puts into FOLDER all that a static host needs to serve.

The page is that of wsc-serve, but what it asks of the server there a worker does here. Beside it stand the lesson and
other texts of docs/ (pages.py). The site asks nothing of any other place, and works below any path. A file of FOLDER that has
the name of one of the site's is replaced; others stay.
"""

from __future__ import annotations

import gzip
import hashlib
import json
import pathlib
import sys

from repo.site.pages import made as pages_made
from wavescalar.cli import Line, whole
from wavescalar.faults import Fault
from wavescalar.programs import ROOT
from wavescalar.viewer.scripts import bundled, modules as modules_of_pages
from wavescalar.viewer.serve import EXAMPLES, FIRST, HERE as VIEW, LONGEST, WORDS, frame
from wavescalar.viewer.view import SCRIPTS, written

HERE = pathlib.Path(__file__).resolve().parent
# What the pages may do: use what stands beside them, and nothing else. The first one compiles the program, too.
PAGES = "default-src 'none'; script-src 'self'; style-src 'self'; img-src 'self'; base-uri 'none'; form-action 'none'"
FRAMES = PAGES.replace("img-src 'self'; ", "")
POLICY = FRAMES.replace("script-src 'self'", "script-src 'self' 'wasm-unsafe-eval'; connect-src 'self'; frame-src 'self'; "
                        "worker-src 'self'")
OWN = ("here.js", "here.css", "pages.css", "slides.js")
# Modules of the site, beside those of the package; what its worker imports is put into one script with it.
MODULES = ("host.js", "wsc.js", "worker.js")
OF_VIEW = ("serve.css", "page.css", "edit.js", "both.js", "serve.js", *SCRIPTS)
# What the page needs after a few other files: it is fetched beside them.
EARLY = ('<link rel="preload" href="wsc.wasm.gz" as="fetch" crossorigin>\n'
         '<link rel="modulepreload" href="wsc.js">\n<link rel="modulepreload" href="host.js">\n'
         '<link rel="modulepreload" href="hands.js">\n')
ASSEMBLIES = ("choice", "landings", "overlap", "ripple", "names")


def examples() -> list[tuple[str, str]]:
    """Titles and texts: the jobs of the page for a class, and assemblies, which have the ending of their file."""
    more = [ROOT / "examples" / f"{name}.asm" for name in ASSEMBLIES]
    files = [it for it in [*EXAMPLES, *more] if it.exists()]
    return [(it.stem if it.suffix == ".job" else it.name, it.read_text()) for it in files]


def replaced(text: str, parts: dict[str, str]) -> str:
    """A text with a part in place of each mark, which stands in it once."""
    for mark, part in parts.items():
        if text.count(mark) != 1:
            raise Fault(f"`{mark}` doesn't stand in the page once")
        text = text.replace(mark, part)
    return text


def bound(text: str, policy: str) -> str:
    """A page with its policy."""
    mark = '<meta charset="utf-8">\n'
    return replaced(text, {mark: f'{mark}<meta http-equiv="Content-Security-Policy" content="{policy}">\n'})


def front(programs: list[str]) -> str:
    """The page itself, which calls these programs."""
    told = {"text": FIRST.read_text(), "name": FIRST.name, "longest": LONGEST, "examples": examples(), "programs": programs}
    style = '<link rel="stylesheet" href="serve.css">\n'
    return bound(replaced((VIEW / "serve.html").read_text(), {
        "@DATA@": written(told), style: f'{style}<link rel="stylesheet" href="here.css">\n{EARLY}',
        "<main>": "<noscript>This page needs JavaScript.</noscript>\n<main>",
        "served.js": "here.js",
    }), POLICY)


def offline(files: dict[str, bytes]) -> bytes:
    """The script that keeps all files, with their names and what they are. Of a module the packed one is kept."""
    names = [name for name in sorted(files) if not name.endswith(".wasm")]
    digest = hashlib.sha256(b"".join(name.encode() + b"\0" + hashlib.sha256(files[name]).digest() for name in names)).hexdigest()
    text = (HERE / "offline.js").read_text()
    return replaced(text, {'"@FILES@"': json.dumps(["./", *names]), "@VERSION@": digest[:16]}).encode()


def site(modules: list[pathlib.Path]) -> dict[str, bytes]:
    """All files by their names."""
    texts, pictures = pages_made(PAGES)
    made = {"index.html": front([it.stem for it in modules]).encode(), "frame.html": bound(frame(), FRAMES).encode()}
    scripts = {**modules_of_pages(), **{name: (HERE / name).read_text() for name in MODULES}}
    texts |= {"wsc.js": scripts["wsc.js"], "hands.js": scripts["hands.js"], "host.js": scripts["host.js"],
              "worker.js": bundled(scripts, "worker.js")}
    made |= {name: text.encode() for name, text in texts.items()}
    for file in [*(HERE / name for name in OWN), *(VIEW / name for name in OF_VIEW), *pictures, *modules]:
        made[file.name] = file.read_bytes()
    made["edit.js"] = replaced(made["edit.js"].decode(), {"@WORDS@": WORDS}).encode()
    made |= {f"{it.name}.gz": gzip.compress(made[it.name], 9, mtime=0) for it in modules}
    return made | {"offline.js": offline(made)}


def main() -> int:
    ask = Line(__doc__)
    ask.add_argument("folder", metavar="FOLDER", type=pathlib.Path)
    ask.add_argument("modules", metavar="MODULE", nargs="+", type=pathlib.Path)
    line = ask.parse_args()
    if line.folder.resolve() in (HERE, VIEW.resolve()):
        raise Fault(f"{line.folder}: its files would be replaced; give a folder of its own, such as build/site")
    files = site(line.modules)
    line.folder.mkdir(parents=True, exist_ok=True)
    for name, data in files.items():
        (line.folder / name).write_bytes(data)
    seen = sum(len(data) for name, data in files.items() if not name.endswith(".wasm"))
    print(f"{line.folder}: {len(files)} files; a browser fetches {seen:,} bytes at most. "
          f"python3 -m http.server -d {line.folder} serves it to this machine")
    return 0


if __name__ == "__main__":
    sys.exit(whole(main))
