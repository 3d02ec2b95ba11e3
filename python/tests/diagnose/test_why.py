"""What wsc-why says.

Each text of docs/REFUSALS.md and LIMITS.md that the program refuses is explained at the place that its answer names, and
answer and status are passed on. Of common mix-ups it is looked at whether they are led on. The program itself is called:
the wrapper takes some of the words below for a file, or answers them with help.
"""

from __future__ import annotations

import re
import subprocess
from collections.abc import Iterator

import pytest

from repo.examples import pairs_of
from tests.cases import each
from tests.places import LIBRARY, ROOT
from wavescalar.diagnose.refusals import SOUND, of_refusal
from wavescalar.diagnose.why import commands_of
from wavescalar.programs import call

# Longer texts take seconds to make.
LONGEST = 2_000_000
SUM = (ROOT / "examples" / "sum.job").read_text()
CHOICE = (ROOT / "examples" / "choice.asm").read_text()
EVENTS = (ROOT / "examples" / "inorder.trace").read_text()
NAMED = (ROOT / "examples" / "names.asm").read_text()
MIXED = [
    ("exec", SUM, "this text is a job; `wsc run` runs it"),
    ("check", SUM, "JOB) | wsc check"),
    ("replay", SUM, "| wsc trace | wsc replay"),
    ("run", CHOICE, "this text is an assembly; `wsc exec` runs it"),
    ("compile", EVENTS, "this text is a trace; `wsc replay` makes its events"),
    ("exec", EVENTS, "takes what stands before the line %trace"),
    ("replay", CHOICE, "this assembly has no line %trace"),
    ("sum.job", SUM, "wsc run < sum.job"),
    ("--help", "", "man -l docs/wsc.1"),
    ("run --help", "", "man -l docs/wsc.1"),
    ("rum", SUM, "perhaps `run`?"),
    ("run --worker 2", SUM, "perhaps `--workers`?"),
    ("run --workers 9", SUM, "isn't a number from 1 to 8"),
    ("run --workers", SUM, "a number from 1 to 8"),
    ("run --turns 5", SUM, "`run` has no option --turns; plain has it"),
    ("trace --budget 100001", CHOICE, "isn't a number from 0 to 100000"),
    ("run --stats --stats", SUM, "--stats stands twice"),
    ("--stats run", SUM, "the command is the first word"),
    ("gen", "", "stands one number"),
    ("gen 2000000", "", "isn't a number from 0 to 1000000"),
    ("check now", CHOICE, "takes no word `now`"),
    ("run", "proc main() { print 1 && 2; }", "there is no `&&`"),
    ("run", "proc main() { var i; for (i = 0; i < 3; i = i + 1) { } }", "there is no `for`"),
    ("run", "proc main() { var i = 0; }", "all variables begin at 0"),
    ("run", "proc f() { } proc main() { print f(); }", "a call is a statement of its own"),
    ("run", "proc f(x) { if (x) { return 1; } } proc main() { }", "last statement of a procedure"),
    ("run", "proc f(x) { return 1; x = 2; } proc main() { }", "last statement of a procedure"),
    ("run", 'proc main() { print "text"; }', "there are no strings"),
    ("check", NAMED.replace("const ", "const -"), "numbers are decimal"),
    ("check", NAMED.replace("const ", "const 0x"), "numbers are decimal"),
    ("check", "; a comment\n" + CHOICE, "comments begin with `#`"),
    ("check", NAMED.replace("wavescalar 2", "wavescalar 1"), "names stand in version 2"),
    ("check", NAMED.replace("wavescalar 2\n", ""), "the first line is `wavescalar 1` or"),
    ("check", "wavescalar 2\narray a 1\nwave 1\nblock b\npad 0 i.0\ni: advance -> l.0\nl: load a <., 1, .>.0 ->\n",
     "an array goes by its number"),
    ("check", "wavescalar 2\nwave 1\nblock for.body\n", "a name is a letter or `_`"),
    ("exec", "refused 3:5 unknown\n", "the text is itself an answer, that of the call before it: refused 3:5 unknown"),
    ("run", "proc main() { var i; i += 1; }", "there is no `+=`"),
    ("run", "proc main() { if (1) { } else if (2) { } }", "needs braces"),
    ("run", "proc main() { var count; print coutn; }", "perhaps `count`?"),
    ("run", "proc main() {\n  print 1\n}", "a `;` may be missing there"),
    ("run", "proc f(a) { return a; } proc main() { print 1 + f(2); }", "a call is a statement of its own"),
    ("run", "proc main() { var i; i = 0x1F; }", "numbers are decimal"),
    ("run", "proc main() { int i; }", "variables are declared by `var`"),
    ("run", "proc main() { }\n%input \n3\n", "a blank stands in it"),
    ("run", "\ufeffproc main() { }", "a byte order mark"),
    ("run --budget 3", SUM, "see --budget"),
    ("plain --turns 3", SUM, "see --turns"),
    ("check", CHOICE.replace(": phi", ": ph"), "perhaps `phi`?"),
    ("check", NAMED.replace("nine.0 turn.0", "nine.0"), "| turn: steer -> over.0"),
    ("check", NAMED.replace("if above big", "if abov big"), "perhaps `above`?"),
    ("check", NAMED.replace("<1, 3, 4>", "<1, 3, 5>"), "| over: halt"),
    ("check", "wavescalar 1\nwave 1\n", "is `end` missing?"),
]

# Refusals that count blocks or instructions, of a text with names: what is named, and the lines that are shown.
COUNTED = [
    ("refused shape 2", "block 2 (big): ", [17]),
    ("refused port 3 0", "instruction 3 (nine), port 0: ", [11]),
    ("refused pending 2 3", "blocks 2 (big) and 3 (little) ", [17, 20]),
    ("refused link 2 8", "operations 2 (word) and 8 (big): ", [10, 18]),
    ("refused link 0 2", "operations 0 and 2 (word): ", [10]),
    ("refused link 10 0", "operations 10 (over) and 0: ", [24]),
    ("refused ripple 8 2", "operation 8 (big): its ripple number is wrong beside the writing operation 2 (word)", [18, 10]),
    ("refused arm 1", "block 1 (start): ", [7]),
    ("refused trigger 3", "block 3 (little) needs a no-op", [20]),
    ("refused full 4", "instruction 4 (above): a list ", [12]),
]


def refusals_of_pages() -> Iterator[tuple[str, tuple[str, str, str]]]:
    """The refusals that pages show: each with its command, its text and its answer."""
    for page in ("REFUSALS.md", "LIMITS.md"):
        for count, (text, words, wanted) in enumerate(pairs_of(ROOT / "docs" / page, LONGEST), 1):
            for answer in re.findall(r"^refused .*$", wanted, re.M):
                yield f"{page}:{count}: {answer}", (words.split()[0], text, answer)


def place_of(said: list[str]) -> str | None:
    """The number of the first line that is shown."""
    found = re.match(r" *(\d+) \| ", said[0]) if said else None
    return found[1] if found else None


@each("command, text, answer", refusals_of_pages())
def test_refusal(wsc: str, command: str, text: str, answer: str) -> None:
    """It is explained at the place that it names."""
    said = of_refusal(answer, text, command, commands_of(wsc))
    named = re.match(r"refused (\d+)", answer)
    assert said
    if named and not said[0].startswith("this text is a job"):
        assert place_of(said) == named[1], said


@each("words, text, wanted", ((f"{words}: {wanted}", (words, text, wanted)) for words, text, wanted in MIXED))
def test_mixed(wsc: str, words: str, text: str, wanted: str) -> None:
    """A mix-up is led on, and answer and status are those of the program."""
    line = [str(LIBRARY / "wsc-why"), "--wsc", wsc, "--", *words.split()]
    done = subprocess.run(line, input=text, capture_output=True, text=True, check=False)
    status, answer, _ = call(wsc, words.split(), text)
    assert (done.returncode, done.stdout) == (status, answer)
    assert wanted in done.stderr


@pytest.mark.parametrize("rule", SOUND)
def test_each_rule_has_a_row(rule: str) -> None:
    assert any(rule in answer for answer, _, _ in COUNTED)


@each("answer, named, lines", ((row[0], row) for row in COUNTED))
def test_counted(answer: str, named: str, lines: list[int]) -> None:
    """What is said of refusals that count, in a text with names."""
    first, *shown = of_refusal(answer, NAMED, "check", [])
    assert named in first
    assert [int(line.partition("|")[0]) for line in shown] == lines
