"""The events of a run as traces, and what `wsc`, which is proved, says of them.

`wsc replay` makes the events of a thread one after the other, and refuses the first that isn't enabled; what it
prints at the end is what they come to. `wsc exec --stats` prints the words and the firings of the sequential run. A
run with partial store queues has no such trace: there only the words and the firings are compared.
"""

from __future__ import annotations

from collections.abc import Iterator

from wavescalar.faults import Fault
from wavescalar.programs import call
from wavescalar.timing.engine import Run
from wavescalar.timing.figures import end_of

# the most that `wsc exec` fires
MOST = 4000000
# so many lines of a trace, and a cycle's more, are put together at a time
PIECE = 4000


def has_trace(run: Run) -> bool:
    """Whether the run's events are the core's: with partial store queues they aren't."""
    return not any(run.flat.parted)


def lines_of(run: Run, number: int) -> Iterator[str]:
    """The lines of the trace of a thread, by pieces; before those of a cycle stands a comment with its number."""
    record, wide = run.record, run.flat.wide
    program = run.flat.programs[number]
    low, high = 4 * program.first + 4, 4 * (program.first + len(program.image.instrs))
    # of each slot of a wave what stands behind the wave's number, and of its issue
    matches = [f" {at >> 2} {at & 3}\n" for at in range(4, high - low + 4)]
    issues = [f" {at >> 2}\n" for at in range(4, high - low + 4)]
    made: list[str] = []
    events, marks, first = record.events, record.marks, 0
    for mark in range(0, len(marks), 2):
        begun, end = len(made), marks[mark + 1]
        for at in range(first, end):
            slot = events[at]
            if slot >= 0:
                wave = slot // wide
                rest = slot - wave * wide
                if low <= rest < high:
                    made.append(f"match {wave}{matches[rest - low]}")
            else:
                wave = ~slot // wide
                rest = ~slot - wave * wide
                if low <= rest < high:
                    made.append(f"issue {wave}{issues[rest - low]}")
        first = end
        if len(made) > begun:
            made[begun] = f"# cycle {marks[mark]}\n{made[begun]}"
            if len(made) > PIECE:
                yield "".join(made)
                made.clear()
    yield "".join(made)


def trace_of(run: Run, number: int = 0) -> Iterator[str]:
    """The assembly of a thread, its input, and its events, by pieces."""
    program = run.flat.programs[number]
    own = "\n".join(program.image.text).rstrip("\n")
    words = "".join(f"{word}\n" for word in program.words)
    yield f"{own}\n%input\n{words}%trace\n"
    yield from lines_of(run, number)


def fired(run: Run, number: int) -> int:
    """The firings of a thread."""
    if len(run.chains) == 1:
        return run.fired
    count, programs = run.flat.count, run.flat.program
    return sum(kind == 0 and programs[key % count].number == number
               for kind, key in zip(run.record.kind, run.record.key))


def words_of(run: Run, number: int) -> str:
    """The words that a thread printed, a line each."""
    return "".join(f"{word}\n" for word in run.chains[number].printed)


def answer_of(run: Run, number: int = 0) -> str:
    """What `wsc exec --stats` is to answer of a thread."""
    end = end_of(run, number)
    more = "" if end.startswith("fault") else f"firings {fired(run, number)}\n"
    return f"{words_of(run, number)}{end}\n{more}"


def verified(program: str, run: Run) -> list[str]:
    """What is wrong, in words; nothing if `wsc replay` takes the traces, to the words and firings that the model has
    and `wsc exec --stats` prints."""
    found: list[str] = []
    for number in range(len(run.chains)):
        wrong = [*(replayed(program, run, number) if has_trace(run) else ()), *executed(program, run, number)]
        found += [f"thread {number + 1}: {it}" for it in wrong] if len(run.chains) > 1 else wrong
    return found


def replayed(program: str, run: Run, number: int) -> Iterator[str]:
    """What `wsc replay` has against the trace of a thread."""
    status, answer, _ = call(program, ["replay"], trace_of(run, number))
    end = end_of(run, number)
    # behind an index fault tokens may be left or not, and so where another thread spent the budget
    either = end.startswith("fault") or end == "budget" and len(run.chains) > 1
    rests = ["rest", "open"] if either else ["open"] if end == "budget" else ["rest"]
    wanted = [f"{words_of(run, number)}{rest}\nfirings {fired(run, number)}\n" for rest in rests]
    if status or answer not in wanted:
        yield f"wsc replay ends with status {status}: {tail(answer)} and not {tail(wanted[0])}"


def executed(program: str, run: Run, number: int) -> Iterator[str]:
    """In what `wsc exec --stats` differs from a thread; of one whose budget was spent it isn't asked."""
    if end_of(run, number) == "budget":
        return
    it = run.flat.programs[number]
    text = "\n".join(it.image.text).rstrip("\n") + "\n%input\n" + " ".join(map(str, it.words)) + "\n"
    status, answer, _ = call(program, ["exec", "--stats", "--budget", str(MOST)], text)
    if status not in (0, 8) or answer != answer_of(run, number):
        yield f"wsc exec ends with status {status}: {tail(answer)} and not {tail(answer_of(run, number))}"


def tail(text: str) -> str:
    """The end of an answer, for a message."""
    lines = text.split("\n")
    return " / ".join((["..."] if len(lines) > 5 else []) + lines[-5:]).rstrip(" /")


def verify(program: str, run: Run) -> None:
    """Raises a fault where something is wrong."""
    if found := verified(program, run):
        raise Fault("; ".join(found))
