"""The links of pages lead somewhere: to a file of the repository, and to a heading where they name one.

    python/run repo.links
"""

from __future__ import annotations

import pathlib
import re
import sys

from wavescalar.programs import ROOT

LINK = re.compile(r"\]\(([^)\s]+)\)")
BLOCK = re.compile(r"^```.*?^```", re.S | re.M)


def anchors(page: pathlib.Path) -> set[str]:
    """The names of a page's headings, as the usual hosts make them."""
    found: set[str] = set()
    for heading in re.findall(r"^#+ (.*)$", BLOCK.sub("", page.read_text()), re.M):
        plain = re.sub(r"[`*]|\]\([^)]*\)|\[", "", heading).strip().lower()
        name = re.sub(r"[^\w\- ]", "", plain).replace(" ", "-")
        count = sum(1 for it in found if it == name or re.fullmatch(rf"{re.escape(name)}-\d+", it))
        found.add(f"{name}-{count}" if count else name)
    return found


def main() -> int:
    left_out = {"crates", "out", ".git", "node_modules"}
    pages = [it for it in sorted(ROOT.rglob("*.md")) if not left_out & set(it.relative_to(ROOT).parts)]
    seen, wrong = 0, list[str]()
    for page in pages:
        for link in LINK.findall(BLOCK.sub("", page.read_text())):
            if re.match(r"[a-z]+:", link):
                continue
            seen += 1
            path, _, anchor = link.partition("#")
            there = (page.parent / path).resolve() if path else page
            if not there.exists():
                wrong.append(f"{page.relative_to(ROOT)}: {link} leads to no file")
            elif anchor and there.suffix == ".md" and anchor not in anchors(there):
                wrong.append(f"{page.relative_to(ROOT)}: {link} leads to no heading")
    print("\n".join([*wrong, f"{seen} links of {len(pages)} pages, {len(wrong)} wrong"]))
    return 1 if wrong else 0


if __name__ == "__main__":
    sys.exit(main())
