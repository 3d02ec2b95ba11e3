"""Lines of src/, specs/ and proofs/ have 110 columns at most.

More may have an attribute `#[tactic(..)]`, which the formatter puts onto one line, an import of one name, and a text
in quotes.
"""

import pathlib
import re
import sys
from collections.abc import Iterator

from wavescalar.programs import ROOT

MOST = 110
MAY_BE_LONGER = re.compile(r'\s*#!?\[tactic\(|use [^{]*\.\{[^,]*\}$|\w+ = codes "[^"]*"$')


def files() -> Iterator[pathlib.Path]:
    """The files that are looked at."""
    for part, ending in (("src", "rt"), ("specs", "antt"), ("proofs", "antt")):
        yield from sorted((ROOT / "crates").glob(f"*/{part}/**/*.{ending}"))


def main() -> int:
    lines = wrong = 0
    for path in files():
        for number, line in enumerate(path.read_text().splitlines(), 1):
            lines += 1
            if len(line) > MOST and not MAY_BE_LONGER.match(line):
                wrong += 1
                print(f"{path.relative_to(ROOT)}:{number}: {len(line)} columns")
    print(f"{lines} lines, {wrong} with more than {MOST} columns")
    return 1 if wrong else 0


if __name__ == "__main__":
    sys.exit(main())
