"""wsl on drafts of drafts.py.

Of each draft that it takes `wsc check` calls the image sound, `wsl` makes the same of it again, and, where the draft's
paths can be linked as they are, `wsc exec --memory` answers the same to it as to the draft with its right notes. No draft
is refused whose paths can be linked as they are, and what is refused is among what wsc-lint tells. Drafts are --drafts N
(60) from number --first N (0) on; half of them can be linked.
"""

import subprocess

from tests.diagnose.drafts import MEMORY, Draft
from wavescalar.diagnose.findings import faults_of

SPOILED = ("?", 0, "?", 0)
INPUT = "%input\n3 1 4 1 5 9 2 6\n"
BUDGET = ["--budget", "20000"]  # firings


def run(program: str, words: list[str], text: str) -> tuple[int, str]:
    """The status of a call, and what it wrote."""
    done = subprocess.run([program, *words], input=text, capture_output=True, text=True, check=False)
    return done.returncode, done.stdout


def text_of(draft: Draft) -> str:
    return "\n".join(draft.lines()) + "\n"


def test_draft(wsl: str, wsc: str, draft_number: int) -> None:
    linked = draft_number % 2 == 0
    draft = Draft(draft_number, 1 + draft_number % 7, linked)
    right = text_of(draft)
    for block in draft.blocks:
        for node in block.nodes:
            node.note = SPOILED if node.op in MEMORY else node.note
    spoiled = text_of(draft)
    status, image = run(wsl, [], spoiled)
    told = {fault.check for fault in faults_of(spoiled, True)}
    if status:
        assert not linked, "it is refused, and its paths can be linked as they are"
        assert image.strip() in told, "it is refused for something that wsc-lint doesn't tell"
        return
    assert not told, "it is taken, and wsc-lint tells faults"
    assert run(wsc, ["check"], image) == (0, "sound\n")
    assert run(wsl, [], image) == (0, image), "another image of its own image"
    if linked:
        before, after = (run(wsc, ["exec", "--memory", *BUDGET], text + INPUT) for text in (right, image))
        assert 3 in (before[0], after[0]) or before == after, "it answers something else"
