"""The statements that are found for instructions.

Of each job one site after the other is changed alone: each instruction that is said to be exact for it changes,
and each that changes is said to be exact for its statement. What a steer is said to stand for has the number or the
result that selects it. Of two jobs all is worked out by hand.
"""

import pytest

from tests import asked
from tests.cases import each
from tests.places import EXAMPLES, JOBS, images_of
from wavescalar.numbered import read
from wavescalar.programs import call
from wavescalar.viewer.statements import FIRST, Trial, statements_of

OTHER: dict[str, tuple[str, str]] = {"binary": ("+", "*"), "unary": ("!", "~"), "give": ("7", "6"), "take": ("7", "6"),
         "print": ("take 7,", "take 6,"), "read": ("give 7,", "give 6,")}
# For two jobs of examples/: the instructions that are exact, by their statement.
BY_HAND = {
    "sum": {"read n;": {2}, "while (i < n)": {7, 8, 9, 10, 11}, "i = i + 1;": {12, 13}, "s = s + i;": {14},
            "print s;": {16}},
    "fibonacci": {"read n;": {2}, "b = 1;": {3}, "while (n)": {8, 9, 10, 11, 12}, "t = a + b;": {13},
                  "n = n - 1;": {14, 15}, "print a;": {17}},
}


def of_site(trial: Trial, k: int) -> set[int] | None:
    """The instructions that change where this site alone does, or nothing where the image does."""
    site = trial.source.sites[k]
    if site.kind in ("load", "store"):
        return of_cell(trial, k)
    word = str(FIRST + k) if site.kind == "number" else next(w for w in OTHER[site.kind] if w != site.word)
    other = trial.compiled({k: word})
    pairs = trial.paired(other, lambda it: True)
    # constants have no pairs: they are looked at where all others keep their numbers
    if pairs is None or other is None or any(i != k for i, k in pairs.items()):
        return None
    if len(other.instrs) != len(trial.image.instrs):
        return None
    both = zip(trial.image.instrs[1:], other.instrs[1:])
    changed = {i for i, (a, b) in enumerate(both, 1) if (a.op, a.arg) != (b.op, b.arg)}
    # a unary operator has a constant beside it
    return {i for i in changed if site.kind != "unary" or trial.image.instrs[i].op != "const"}


def of_cell(trial: Trial, k: int) -> set[int] | None:
    """The same of a site that names an array: here it names one that stands in front of all."""
    other = trial.compiled({k: "first"}, "array first[1]; ")
    pairs = trial.paired(other, lambda it: False)
    if pairs is None or other is None:
        return None
    return {i for new, i in pairs.items() if other.instrs[new].op in ("load", "store") and other.instrs[new].arg == 1}


@each("job", images_of(*JOBS))
def test_sites(wsc: str, job: str) -> None:
    """Each site that is changed alone."""
    trial = Trial(wsc, job, read(call(wsc, ["compile"], job)[1]))
    for k, site in enumerate(trial.source.sites):
        changed = of_site(trial, k)
        if changed is None:
            continue
        said = {i for i, at in trial.at.items() if at == k}
        what = f"{site.kind} {site.word} of statement {site.statement}"
        asked.want(f"what is exact for {what}, and doesn't change", said - changed, set())
        asked.want(f"what changes with {what}, and is exact for another", {
            i for i in changed if i in trial.exact and site.statement not in trial.exact[i]}, set())


@pytest.mark.parametrize("name", BY_HAND)
def test_by_hand(wsc: str, name: str) -> None:
    """What was worked out by hand."""
    job = (EXAMPLES / f"{name}.job").read_text()
    ends, told = statements_of(wsc, job, read(call(wsc, ["compile"], job)[1]))
    found = {job[a:b]: {i for i, (of, exact) in told.items() if exact and k in of} for k, (a, b) in enumerate(ends)}
    assert {text: instrs for text, instrs in found.items() if instrs} == BY_HAND[name]
