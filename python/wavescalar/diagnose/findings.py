"""All faults of an assembly at once, as wsc-lint tells them and as a refusal carries them."""

from __future__ import annotations

from wavescalar.diagnose.quick_check import surely
from wavescalar.diagnose.rules import Rules
from wavescalar.reader import Finding, Text, lines_of, sections_of


def words_of(lines: list[str], start: int) -> list[Finding]:
    """Faults of the input section: an item that is no word."""
    for at, line in enumerate(lines, start):
        for item in line.split():
            if not (item.isascii() and item.isdigit() and len(item.lstrip("0")) <= 20 and int(item) < 1 << 64):
                column = line.index(item) + 1
                return [Finding(at, column, "input", f"`{item}` is no number below 2^64", "",
                              f"refused {at}:{column} input")]
    return []


def faults_of(text: str, draft: bool = False) -> list[Finding]:
    """All faults of a text."""
    lines = lines_of(text)
    _, cut = next(sections_of(lines))
    own, found = lines[:cut], list[Finding]()
    if not surely(own, draft):
        read = Text(own, cut + (cut < len(lines)))
        found = read.faults + Rules(read, draft).found
    found += words_of(lines[cut + 1 :], cut + 2)
    return sorted(found, key=lambda f: (f.line, f.column))


def agrees(found: list[Finding], said: str, status: int) -> bool:
    """Whether `wsc check` says the same: sound, or a refusal that is among those told here."""
    if status == 0:
        return not found
    return said.strip() in {f.check for f in found}
