"""docs/PROVED.md and docs/TESTED.md say of each crate what the head of its root file says.

    python/run repo.heads            compares them
    python/run repo.heads --write    writes the sections of the pages as the heads are

A head is the `//!` lines of crates/NAME/src/lib.rt: a paragraph that says what the crate is, and after it what is proved
of it, or, if its name ends with _tests, what its tests show. A section of a page is what stands below `### NAME`, up to
the next heading. Line breaks don't count; an item of a list begins with `- `. The top call and the programs have no
section. Two crates are described on another page, which must name each law that the crate gives.
"""

import pathlib
import re
import sys
import textwrap
from collections.abc import Iterable, Iterator

from repo import antt
from wavescalar.programs import ROOT

PROVED = ROOT / "docs" / "PROVED.md"
TESTED = ROOT / "docs" / "TESTED.md"
WITHOUT = {"wsc", "wsc_top", "wsl", "wss", "wso"}
ELSEWHERE = {"one_result": "THEOREM.md", "asm_link": "BACKEND.md"}
ITEM = "- "


def paragraphs(lines: Iterable[str]) -> list[str]:
    """The paragraphs and list items of lines, each in one line."""
    found: list[list[str]] = [[]]
    for line in lines:
        if found[-1] and (not line.strip() or line.strip().startswith(ITEM)):
            found.append([])
        if line.strip():
            found[-1].append(line.strip())
    return [" ".join(words) for words in found if words]


def laid_out(text: list[str]) -> list[str]:
    """The lines of paragraphs and list items, with a blank line between all but two items."""
    lines: list[str] = []
    for before, now in zip(["", *text], text):
        indent = "  " if now.startswith(ITEM) else ""
        if not (indent and before.startswith(ITEM)):
            lines.append("")
        lines += textwrap.wrap(now, 110, subsequent_indent=indent, break_long_words=False, break_on_hyphens=False)
    return lines


def head(name: str) -> list[str]:
    """What the head of a crate says behind its first paragraph."""
    lines = (ROOT / "crates" / name / "src" / "lib.rt").read_text().splitlines()
    return paragraphs(line[3:] for line in lines if line.startswith("//!"))[1:]


def sections(page: pathlib.Path) -> Iterator[tuple[str, int, int, list[str]]]:
    """The lines below each heading of a crate, by its name, and where they stand."""
    lines = page.read_text().splitlines()
    starts = [at for at, line in enumerate(lines) if line.startswith("#")] + [len(lines)]
    for at, end in zip(starts, starts[1:]):
        if lines[at].startswith("### "):
            yield lines[at].removeprefix("### "), at + 1, end, lines[at + 1 : end]


def write(page: pathlib.Path) -> None:
    """Writes the sections of a page as the heads are."""
    lines = page.read_text().splitlines()
    for name, start, end, _ in reversed(list(sections(page))):
        lines[start:end] = [*laid_out(head(name)), ""]
    page.write_text("\n".join(lines).rstrip("\n") + "\n")


def main() -> int:
    crates = list(antt.crates())
    pages: dict[pathlib.Path, set[str]] = {PROVED: set(), TESTED: set()}
    for name in crates:
        if name not in WITHOUT and name not in ELSEWHERE:
            pages[TESTED if name.endswith("_tests") else PROVED].add(name)
    wrong = []
    for name, other in ELSEWHERE.items():
        root = (ROOT / "crates" / name / "src" / "lib.rt").read_text()
        laws = re.findall(r"\w+", " ".join(re.findall(r"pub use laws::\{(.*?)\}", root, re.DOTALL)))
        text = (ROOT / "docs" / other).read_text()
        wrong += [f"{other}: the law {law} of {name} isn't named" for law in laws if f"`{law}`" not in text]
    for page, names in pages.items():
        if sys.argv[1:] == ["--write"]:
            write(page)
        told = {name: paragraphs(lines) for name, _, _, lines in sections(page)}
        wrong += [f"{page.name}: no section {name}" for name in sorted(names - set(told))]
        wrong += [f"{page.name}: a section {name}, and no such crate" for name in sorted(set(told) - names)]
        differ = [name for name in sorted(names & set(told)) if told[name] != head(name)]
        wrong += [f"{page.name}: the section {name} isn't its head" for name in differ]
    print("".join(f"{text}\n" for text in wrong), end="")
    print(f"{sum(map(len, pages.values())) + len(ELSEWHERE)} crates, {len(wrong)} whose page and head differ")
    return 1 if wrong else 0


if __name__ == "__main__":
    sys.exit(main())
