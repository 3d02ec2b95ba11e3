"""What wsc-lint says beside `wsc check`.

Of each assembly of docs/ and examples/ it has to say what `wsc check` says: no fault where that is `sound`, else
among its faults the refusal that is named. The same of drafts of drafts.py (--drafts N from number --first N on, else 60
from 0 on), as they are, with the right notes, and with one thing changed.
"""

from __future__ import annotations

import random
from collections.abc import Iterator

from repo.examples import pairs_of
from tests.cases import each
from tests.diagnose.drafts import Draft, broken
from tests.places import EXAMPLES, ROOT
from wavescalar.diagnose.findings import agrees, faults_of
from wavescalar.diagnose.quick_check import surely
from wavescalar.diagnose.rules import Rules
from wavescalar.numbered import kind_of
from wavescalar.programs import call
from wavescalar.reader import Text, lines_of, sections_of

# Longer texts take seconds to read.
LONGEST = 2_000_000
# Those that are read in two ways.
SHORT = 20_000


def texts() -> Iterator[tuple[str, str]]:
    """The names and texts of assemblies of the repository."""
    for page in sorted((ROOT / "docs").glob("*.md")):
        for count, (text, _, _) in enumerate(pairs_of(page, LONGEST), 1):
            if kind_of(text) == "assembly":
                yield f"{page.name}:{count}", text
    for file in sorted(EXAMPLES.rglob("*.asm")):
        yield file.name, file.read_text()


def made(number: int) -> str:
    """A draft: of each ten one with few right notes, two sound ones, seven broken."""
    kind = number % 10
    draft = Draft(number, 1 + number % 7, kind > 0)
    lines, rng = draft.lines(), random.Random(number)
    for _ in range(0 if kind < 3 else 1 if kind < 8 else 2):
        lines = broken(lines, rng)
    return "\n".join(lines) + "\n"


def compare(program: str, text: str) -> None:
    """Fails where the linter says something else than `wsc check`."""
    status, said, _ = call(program, ["check"], text)
    found = faults_of(text)
    assert agrees(found, said, status), f"{said.strip()} and not {[fault.check for fault in found]}"


def both_say(text: str, draft: bool) -> tuple[bool, bool]:
    """Whether the quick look takes a text for right, and whether the rules find nothing in it."""
    lines = lines_of(text)
    _, cut = next(sections_of(lines))
    read = Text(lines[:cut], cut + (cut < len(lines)))
    return surely(lines[:cut], draft), not read.faults + Rules(read, draft).found


def test_quick_look() -> None:
    """What the quick look takes for right, line by line, is right by the rules, which read the text whole; and the quick
    look is of use: it takes nearly all that is right."""
    quick = right = 0
    several = [text for _, text in texts() if len(text) < SHORT] + [made(number) for number in range(60)]
    for text in several:
        if kind_of(text) == "assembly":
            for draft in (False, True):
                is_quick, is_right = both_say(text, draft)
                assert is_right or not is_quick, text
                quick, right = quick + is_quick, right + is_right
    assert 50 < right < 2 * len(several) and quick > 0.9 * right, (quick, right)


@each("text", texts())
def test_text(wsc: str, text: str) -> None:
    compare(wsc, text)


def test_draft(wsc: str, draft_number: int) -> None:
    """One that is no assembly any more, its first line being gone, is none of the linter's."""
    text = made(draft_number)
    if kind_of(text) == "assembly":
        compare(wsc, text)
