"""Makes pages of the site of the texts of docs/: the lesson, the language, the assembly, the words; sheets for a class, and
slides. A job or an assembly that stands in a text has a link which opens it in the playground.

Of Markdown it takes what these texts use: headings, paragraphs, lists of two levels, tables, blocks between ``` and indented ones,
pictures, links, `code`, **bold** and *italic*.
"""

from __future__ import annotations

import base64
import html
import pathlib
import re
import urllib.parse

from wavescalar.faults import Fault
from wavescalar.programs import ROOT

DOCS = ROOT / "docs"
# Each page, the text that it is made of, and its name where another page leads to it.
TEXTS = {"lesson": "LESSON.md", "language": "LANGUAGE.md", "assembly": "ASSEMBLY.md", "glossary": "GLOSSARY.md"}
SHEETS = {"exercises": "Exercises", "answers": "Answers to the exercises"}
# What stands on top of each page.
LINKS = {"index": "playground", "lesson": "lesson", "exercises": "exercises", "answers": "answers", "slides": "slides",
         "language": "language", "assembly": "assembly", "glossary": "glossary"}
# Under a heading of the lesson or of a slide, the address within the playground to begin with.
BEGINNINGS = {
    "One program in two orders": "example=sum&A=trace&B=random-1&by=event&at=0",
    "One program, two orders": "example=sum&A=trace&B=random-1&by=event&at=40",
    "Tokens": "example=sum&A=rounds&B=grid-1-1&by=round&at=0&one=1",
    "Exercise 1: how long is a turn": "example=sum&A=rounds&B=grid-1-1&by=round&at=0",
    "Exercise 2: turns side by side": "example=squares&A=grid-4-1&B=grid-4-2&by=round&at=0",
    "Exercise 3: a load before its turn": "example=early&A=random-4&B=random-1&by=memory&at=0",
}
JOB = re.compile(r"^(?:\s*#.*\n)*\s*(?:proc\s|array\s+\w+\s*\[)", re.M)
ASSEMBLY = re.compile(r"\Awavescalar \d")
ANSWER = "**Answer.**"
# What a program of the lesson answers.
TOLD = re.compile(r"^answers `[^`]*`\n```\n.*?^```\n", re.M | re.S)


def address(text: str) -> str:
    """The playground with this text."""
    coded = base64.urlsafe_b64encode(text.encode()).decode().rstrip("=")
    name = "text.asm" if ASSEMBLY.match(text) else "text.job"
    return f"index.html#{urllib.parse.urlencode({'name': name, 'text': coded})}"


def anchor(title: str) -> str:
    """The name of a heading, as GitHub makes it."""
    return re.sub(r"[^\w\- ]", "", title.lower()).replace(" ", "-")


class Page:
    """Turns a text into a page's body; `files` are the pictures that it shows."""

    def __init__(self, known: dict[str, str]):
        self.known, self.files = known, list[str]()

    def link(self, text: str, to: str) -> str:
        """A link, if it leads to a page of the site; else its text alone."""
        path, mark, place = to.partition("#")
        if not path:
            return f'<a href="{to}">{text}</a>'
        page = self.known.get(pathlib.PurePosixPath(path).name)
        return f'<a href="{page}.html{mark}{place}">{text}</a>' if page else text

    def line(self, text: str) -> str:
        """What stands within a line: code first, since nothing in it means anything else."""
        codes: list[str] = []

        def kept(found: re.Match[str]) -> str:
            codes.append(f"<code>{found[2].strip()}</code>")
            return f"\0{len(codes) - 1}\0"

        text = re.sub(r"(`+)(.+?)\1", kept, html.escape(text, quote=False), flags=re.S)
        text = re.sub(r"!\[([^\]]*)\]\(([^)]*)\)", lambda it: self.picture(it[1], it[2]), text)
        text = re.sub(r"(?<!!)\[([^\]]*)\]\(([^)]*)\)", lambda it: self.link(it[1], it[2]), text)
        text = re.sub(r"\*\*(.+?)\*\*", r"<b>\1</b>", text, flags=re.S)
        text = re.sub(r"\*([^*]+)\*", r"<i>\1</i>", text)
        return re.sub("\0(\\d+)\0", lambda it: codes[int(it[1])], text)

    def picture(self, alt: str, path: str) -> str:
        """A picture, which comes to stand beside the pages."""
        self.files.append(path)
        return f'<img src="{pathlib.PurePosixPath(path).name}" alt="{html.escape(alt)}">'

    def code(self, lines: list[str]) -> str:
        """A block as it stands, with a link to the playground if it is a program."""
        text = "\n".join(lines) + "\n"
        is_program = ASSEMBLY.match(text) or JOB.search(text) and "{" in text
        there = f'<a class="open" href="{address(text)}">open in the playground</a>' if is_program else ""
        return f"<div class=\"code\"><pre>{html.escape(text, quote=False)}</pre>{there}</div>"

    def table(self, rows: list[str]) -> str:
        """A table, whose second row parts the head from the rest."""
        cells = [[cell.replace("\0", "|") for cell in row.strip().strip("|").replace(r"\|", "\0").split("|")] for row in rows]
        made = [f"<tr>{''.join(f'<{tag}>{self.line(cell.strip())}</{tag}>' for cell in row)}</tr>"
                for k, row in enumerate(cells) if k != 1 for tag in ["td" if k else "th"]]
        return f"<div class=\"wide\"><table>{''.join(made)}</table></div>"

    def listed(self, lines: list[str]) -> str:
        """A list; points that are indented belong to the one before."""
        is_numbered = bool(re.match(r"\d+\. ", lines[0]))
        made, inner, tag = list[str](), list[str](), "ol" if is_numbered else "ul"
        for line in [*lines, "- "]:
            if re.match(r"\s+(?:-|\d+\.) ", line):
                inner.append(line.strip())
            elif re.match(r"(?:-|\d+\.) ", line):
                if inner:
                    made[-1] += self.listed(inner)
                    inner = []
                made.append(line.split(" ", 1)[1])
            elif inner:
                inner[-1] += "\n" + line.strip()
            else:
                made[-1] += "\n" + line.strip()
        return f"<{tag}>{''.join(f'<li>{self.item(it)}</li>' for it in made[:-1])}</{tag}>"

    def item(self, text: str) -> str:
        """A point of a list, whose inner list is made already."""
        own, mark, inner = text.partition("<ul>")
        return self.line(own) + mark + inner

    def part(self, lines: list[str]) -> str:
        """Lines that belong together."""
        first = lines[0]
        if found := re.match(r"(#+) (.*)", first):
            depth, title = len(found[1]), found[2]
            begin = BEGINNINGS.get(title)
            there = f' <a class="open" href="index.html#{begin}">begin in the playground</a>' if begin else ""
            return f'<h{depth} id="{anchor(title)}">{self.line(title)}{there}</h{depth}>'
        if first.startswith("|"):
            return self.table(lines)
        if re.match(r"(?:-|\d+\.) ", first):
            return self.listed(lines)
        if first.startswith("    "):
            return self.code([line[4:] for line in lines])
        return f"<p>{self.line(chr(10).join(lines))}</p>"

    def body(self, text: str) -> str:
        """All of a text."""
        made, lines = list[str](), list[str]()
        fence: list[str] | None = None

        def done() -> None:
            if lines:
                made.append(self.part(lines))
                lines.clear()

        for line in text.splitlines():
            if line.startswith("```"):
                if fence is None:
                    done()
                    fence = []
                else:
                    made.append(self.code(fence))
                    fence = None
            elif fence is not None:
                fence.append(line)
            elif not line.strip():
                done()
            else:
                # a heading, and what isn't a table any more, stand for themselves
                if lines and (line.startswith("#") or lines[0].startswith("#")
                              or (lines[0].startswith("|") != line.startswith("|"))
                              or re.match(r"(?:-|1\.) ", line) and not re.match(r"(?:-|\d+\.) ", lines[0])):
                    done()
                lines.append(line)
        done()
        return "\n".join(made)


def whole(name: str, title: str, body: str, policy: str) -> str:
    """A page of its own."""
    links = " ".join(f'<a href="{it}.html"{" class=here" if it == name else ""}>{text}</a>' for it, text in LINKS.items())
    script = '\n<script src="slides.js" defer></script>' if name == "slides" else ""
    return (f'<!doctype html>\n<html lang="en">\n<head>\n<meta charset="utf-8">\n'
            f'<meta http-equiv="Content-Security-Policy" content="{policy}">\n'
            f'<meta name="viewport" content="width=device-width, initial-scale=1">\n<title>{html.escape(title)}</title>\n'
            f'<link rel="stylesheet" href="pages.css">{script}\n</head>\n<body class="{name}">\n<nav>{links}</nav>\n<main>\n'
            f"{body}\n</main>\n</body>\n</html>\n")


def sections(text: str) -> list[str]:
    """A text, cut before each heading of the second level."""
    return re.split(r"^(?=## )", text, flags=re.M)


def sheets(lesson: str) -> dict[str, str]:
    """The exercises without their answers, with the words that they use, and the answers: texts."""
    parts = sections(lesson)
    ours = [it for it in parts if it.startswith(("## Exercise", "## Homework"))]
    words = [it for it in parts if it.startswith("## Eight words")]
    if len(words) != 1 or not all(ANSWER in it for it in ours):
        raise Fault("LESSON.md has no words, or an exercise without answer")
    asked = [TOLD.sub("", it.partition(ANSWER)[0]) for it in ours]
    told = [it.split("\n", 1)[0] + "\n\n" + it.partition(ANSWER)[2] for it in ours]
    return {"exercises": "# Exercises\n\n" + "".join(words + asked), "answers": "# Answers to the exercises\n\n" + "".join(told)}


def slides(page: Page, text: str) -> str:
    """Slides: a section for each heading."""
    return "\n".join(f"<section>{page.body(it)}</section>" for it in sections(text) if it.strip())


def made(policy: str) -> tuple[dict[str, str], list[pathlib.Path]]:
    """All pages by their file names, and the pictures that they show."""
    known = {file: name for name, file in TEXTS.items()}
    page, bodies = Page(known), dict[str, tuple[str, str]]()
    for name, file in TEXTS.items():
        text = (DOCS / file).read_text()
        bodies[name] = text.split("\n", 1)[0].lstrip("# "), page.body(text)
    for name, text in sheets((DOCS / TEXTS["lesson"]).read_text()).items():
        bodies[name] = SHEETS[name], page.body(text)
    bodies["slides"] = "Slides", slides(page, (DOCS / "SLIDES.md").read_text())
    texts = {f"{name}.html": whole(name, title, body, policy) for name, (title, body) in bodies.items()}
    return texts, [DOCS / file for file in dict.fromkeys(page.files)]
