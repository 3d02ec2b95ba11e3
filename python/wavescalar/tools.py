"""Links, checks, lists, runs, traces and replays images, and runs jobs, by the programs `wsc` and `wsl`.

`wsc` is the program that the environment's WSC names, else `wsc` at the top of the repository, else `wsc` on the path;
`wsl` is that of WSL, else `wsl` at the top of the repository, else `wsc-link` on the path.
Where a text is given in place of an image, it may have comments and names, and places are told in it.
"""

from __future__ import annotations

import re
from collections.abc import Iterable
from dataclasses import dataclass
from typing import Literal, Union, cast

from wavescalar.diagnose.findings import faults_of
from wavescalar.faults import CallFault, Fault, Refused
from wavescalar.image import Block, Image, Instruction, Wave
from wavescalar.isa import WORDS
from wavescalar.programs import call, usual, usual_linker
from wavescalar.text import input_of, reading, sections

Ending = Literal["halt", "budget", "fault", "port"]
# What the numbers of a refusal stand for, by its word.
MEANT = {"shape": "B", "arm": "B", "trigger": "B", "pending": "BB", "port": "I-", "link": "II", "ripple": "II",
         "full": "I"}
ENDED: dict[int, Ending] = {0: "halt", 3: "budget", 6: "port", 8: "fault"}


@dataclass(frozen=True)
class Run:
    """What a run did.

    words: what it printed, in order.
    ending: `halt`, or `budget`, `fault` (an index past an array's end) or `port` (a port failed).
    where: of a fault the array's name, or `hidden K`; of a port its number.
    memory: where asked for, the arrays with names, each with its cells.
    firings: how many instances fired; None after a fault.
    handed: the words that the run handed to port 1, up to the first that couldn't be written.
    cycles: of `grid`, how many it took; None after a fault, and of other runs.
    turns: of `Job.plain`, how many statements it made; None after a fault, and of other runs.
    """

    words: tuple[int, ...]
    ending: Ending
    where: str | None = None
    memory: tuple[tuple[str, tuple[int, ...]], ...] = ()
    firings: int | None = None
    handed: tuple[int, ...] = ()
    cycles: int | None = None
    turns: int | None = None

    def cells(self, name: str) -> tuple[int, ...]:
        """The cells of the first array with this name; KeyError where none was shown."""
        for own, cells in self.memory:
            if own == name:
                return cells
        raise KeyError(name)


@dataclass(frozen=True)
class Match:
    """A token of a wave number comes to a port, from 0, of an instruction."""

    wave: int
    instruction: int
    port: int

    def __str__(self) -> str:
        return f"match {self.wave} {self.instruction} {self.port}"


@dataclass(frozen=True)
class Issue:
    """The operation of an instruction, under a wave number, is done."""

    wave: int
    instruction: int

    def __str__(self) -> str:
        return f"issue {self.wave} {self.instruction}"


Event = Union[Match, Issue]


@dataclass(frozen=True)
class Trace:
    """The events of a run, in the order in which they happened. `ending` is that of the run, None of a made trace."""

    image: Image
    input: tuple[int, ...]
    events: tuple[Event, ...]
    ending: Ending | None = None

    def __str__(self) -> str:
        return "".join([str(self.image), *(f"{line}\n" for line in ("%input", *self.input, "%trace", *self.events))])


@dataclass(frozen=True)
class Replay:
    """What the events of a trace did; `rests` where none is left to happen."""

    words: tuple[int, ...]
    rests: bool
    firings: int


def _call(program: str, words: list[str], text: str, timeout: float | None) -> tuple[int, str, str]:
    status, out, err = call(program, words, text, timeout)
    if status == 2 and out.startswith("refused "):
        raise refusal(out.rstrip("\n"), text, is_draft=not words)
    if status not in ENDED:
        raise CallFault(f"{program} {' '.join(words)} ended with status {status}: {out[:200]}", status)
    return status, out, err


def _said(answer: str, text: str, is_draft: bool) -> str | None:
    """What the linter says of a refusal; of one for notes that were never made, that they weren't."""
    if answer.startswith("refused link") and reading(text).image.is_draft:
        return "this is a draft: `link` gives it notes first"
    found = next((it for it in faults_of(sections(text)[0], is_draft) if it.check == answer), None)
    return found.message + (f"; {found.mend}" if found.mend else "") if found else None


def refusal(answer: str, text: str, is_draft: bool = False) -> Refused:
    """A line `refused ..` about this text, with what it names, and what the linter says of it."""
    made = _placed(answer, text)
    made.said = _said(answer, text, is_draft)
    return made


def _placed(answer: str, text: str) -> Refused:
    """A line `refused ..` about this text, with what it names."""
    lines = text.split("\n")
    if found := re.fullmatch(r"refused (\d+)(?::(\d+))? (.+)", answer):
        line, column = int(found[1]), int(found[2]) if found[2] else None
        told = lines[line - 1].removesuffix("\r") if line <= len(lines) else None
        made = Refused(answer, found[3], (), line, column, told)
        try:
            own = reading(text)
        except Refused as same:
            made.instruction, made.name = (same.instruction, same.name) if same.line == line else (None, None)
        else:
            _name(made, own.instruction_lines.index(line) + 1 if line in own.instruction_lines else None, own.image)
        return made
    _, rule, *rest = answer.split()
    numbers = tuple(int(word) for word in rest if word.isdigit())
    made = Refused(answer, rule, numbers)
    meant = [(kind, number) for kind, number in zip(MEANT.get(rule, ""), numbers, strict=False) if number]
    if meant:
        own = reading(text)
        kind, number = meant[0]
        if kind == "I":
            made.line = own.instruction_lines[number - 1]
            _name(made, number, own.image)
        else:
            made.line = own.block_lines[number - 1]
            made.block, made.block_name = number, own.image.blocks[number - 1].name
        made.text = lines[made.line - 1].removesuffix("\r")
    return made


def _name(made: Refused, number: int | None, image: Image) -> None:
    if number is not None:
        made.instruction, made.name = number, image.instructions[number - 1].name


def _wsc(wsc: str | None) -> str:
    return wsc or usual()


def _wsl(wsl: str | None) -> str:
    return wsl or usual_linker()


def _text(image: Image | str) -> str:
    return image if isinstance(image, str) else str(image)


def _with_input(image: Image | str, given: Iterable[int] | None) -> str:
    """A text with these words behind it; a text's own input stays where None is given."""
    text = _text(image)
    if given is None:
        return text
    words = list(given)
    for word in words:
        if not 0 <= word < WORDS:
            raise Fault(f"{word} is no word: a whole number below 2^64")
    own = sections(text)[0]
    return "".join([own, "" if own.endswith("\n") else "\n", *(f"{word}\n" for word in ("%input", *words))])


def link(image: Image | str, *, wsl: str | None = None, timeout: float | None = None) -> Image:
    """The image of a draft, with notes, and with a `nop` more in some blocks; names stay, and the version.

    timeout: in seconds. Raises Refused where the draft isn't open to notes.
    """
    text = sections(_text(image))[0]
    draft = reading(text).image
    _, out, _ = _call(_wsl(wsl), [], text, timeout)
    return _renamed(reading(out).image, draft)


def _renamed(made: Image, draft: Image) -> Image:
    """The linked image with the draft's names; the linker puts its `nop` behind all others of a block."""
    waves: list[Wave] = []
    for wave, old in zip(made.waves, draft.waves):
        blocks = []
        for block, before in zip(wave.blocks, old.blocks):
            names: list[str | None] = [it.name for it in before.instructions]
            if [it.op for it in block.instructions[: len(names)]] != [it.op for it in before.instructions]:
                raise Fault("the linker answered another program")
            names += [None] * (len(block.instructions) - len(names))
            instrs = tuple(Instruction(it.op, it.argument, it.note, it.lists, name)
                           for it, name in zip(block.instructions, names))
            blocks.append(Block(instrs, block.exit, block.pads, before.name))
        waves.append(Wave(tuple(blocks)))
    return Image(tuple(waves), made.arrays, max(made.version, draft.version))


def check(image: Image | str, *, wsc: str | None = None, timeout: float | None = None) -> None:
    """Raises Refused where the image isn't sound. timeout: in seconds."""
    _call(_wsc(wsc), ["check"], _text(image), timeout)


def listing(image: Image | str, *, wsc: str | None = None, timeout: float | None = None) -> str:
    """The lines of `wsc list`: waves, blocks and memory operations, by number. timeout: in seconds."""
    return _call(_wsc(wsc), ["list"], _text(image), timeout)[1]


def _run(command: list[str], budget: int | None, memory: bool, text: str, wsc: str | None,
         timeout: float | None) -> tuple[int, list[str], tuple[int, ...]]:
    """The status of a run, the lines that it prints, and the words that it hands to port 1."""
    words = [*command, "--stats"]
    words += [] if budget is None else ["--budget", str(budget)]
    words += ["--memory"] if memory else []
    status, out, err = _call(_wsc(wsc), words, text, timeout)
    # the wrapper says there, in words, that it builds the program
    return status, out.splitlines(), tuple(int(line) for line in err.splitlines() if line.isdigit())


def _told(lines: list[str], handed: tuple[int, ...]) -> Run:
    """What the lines of one run say; Fault where they say no ending."""
    count = next((k for k, line in enumerate(lines) if not line.isdigit()), len(lines))
    ending, _, where = lines[count].partition(" ") if count < len(lines) else ("", "", "")
    if ending not in ENDED.values():
        raise Fault(f"wsc answered no ending: {lines[count:][:1]}")
    shown: list[tuple[str, tuple[int, ...]]] = []
    counts: dict[str, int] = {}
    for line in lines[count + 1 :]:
        if found := re.fullmatch(r"(\w+) = \[(.*)\]", line):
            shown.append((found[1], tuple(map(int, found[2].split(", "))) if found[2] else ()))
        elif found := re.fullmatch(r"(firings|cycles|turns) (\d+)", line):
            counts[found[1]] = int(found[2])
    return Run(tuple(map(int, lines[:count])), cast(Ending, ending), where or None, tuple(shown),
               counts.get("firings"), handed, counts.get("cycles"), counts.get("turns"))


def _one(command: list[str], budget: int | None, memory: bool, text: str, wsc: str | None,
         timeout: float | None) -> Run:
    """The run of one image; its ending has to be that of the status."""
    status, lines, handed = _run(command, budget, memory, text, wsc, timeout)
    done = _told(lines, handed)
    if done.ending != ENDED[status]:
        raise CallFault(f"wsc {command[0]} answered {done.ending} with status {status}", status)
    return done


def run(image: Image | str, input: Iterable[int] | None = None, *, workers: int = 1, budget: int | None = None,
        memory: bool = False, wsc: str | None = None, timeout: float | None = None) -> Run:
    """Runs an image on these input words.

    workers: from 1 to 8; what is printed doesn't depend on it. budget: firings, from 0 to 4,000,000, by default
    2,000,000. memory: whether the arrays are shown. timeout: in seconds.
    """
    command = ["exec", "--workers", str(workers)]
    return _one(command, budget, memory, _with_input(image, input), wsc, timeout)


def decouple(image: Image | str, input: Iterable[int] | None = None, *, budget: int | None = None,
             memory: bool = False, wsc: str | None = None, timeout: float | None = None) -> Run:
    """As `run` on one thread, with decoupled stores: a store's address may come before its data."""
    return _one(["decouple"], budget, memory, _with_input(image, input), wsc, timeout)


def grid(image: Image | str, input: Iterable[int] | None = None, *, elements: int = 16, waves: int = 4,
         budget: int | None = None, memory: bool = False, wsc: str | None = None,
         timeout: float | None = None) -> Run:
    """Runs an image on a clocked grid (docs/GRID.md); `cycles` says how long it took.

    elements: from 1 to 64. waves: those in flight, from 1 to 1,000,000. budget: firings, from 0 to 100,000, the
    default. timeout: in seconds.
    """
    command = ["grid", "--elements", str(elements), "--waves", str(waves)]
    return _one(command, budget, memory, _with_input(image, input), wsc, timeout)


def multi(jobs: Iterable[str], *, workers: int = 1, budget: int | None = None, memory: bool = False,
          wsc: str | None = None, timeout: float | None = None) -> tuple[Run, ...]:
    """Runs up to four jobs, programs of docs/LANGUAGE.md, each in a thread of its own over the same workers.

    budget: firings of each thread, as of `run`. The first thread alone has ports. A refusal's line counts in the
    jobs one behind the other, with a line `%job` between two. timeout: in seconds.
    """
    texts = list(jobs)
    if any("%job" in re.split(r"\r?\n", text) for text in texts):
        raise Fault("a job has a line %job: give it as two")
    joined = "%job\n".join(text if text.endswith("\n") else f"{text}\n" for text in texts)
    _, lines, handed = _run(["multi", "--workers", str(workers)], budget, memory, joined, wsc, timeout)
    heads = [k for k, line in enumerate(lines) if line.startswith("thread ")]
    parts = [lines[at + 1 : end] for at, end in zip(heads, [*heads[1:], len(lines)])]
    return tuple(_told(part, () if k else handed) for k, part in enumerate(parts))


def events_of(text: str) -> tuple[Event, ...]:
    """The events of a trace's section; Fault where a line is none."""
    found: list[Event] = []
    for line in text.splitlines():
        if words := line.partition("#")[0].split():
            kind, numbers = words[0], [int(word) for word in words[1:] if word.isdigit()]
            if len(numbers) != len(words) - 1 or (kind, len(numbers)) not in (("match", 3), ("issue", 2)):
                raise Fault(f"no event: {line.strip()}")
            found.append(Match(*numbers) if kind == "match" else Issue(*numbers))
    return tuple(found)


def read_trace(text: str) -> Trace:
    """The trace of a text with `%input` and `%trace`."""
    return Trace(reading(text).image, input_of(text), events_of(sections(text)[2] or ""))


def trace(image: Image | str, input: Iterable[int] | None = None, *, budget: int | None = None,
          wsc: str | None = None, timeout: float | None = None) -> Trace:
    """Runs an image on one thread, with its events. budget: firings, from 0 to 100,000, the default."""
    words = ["trace"] + ([] if budget is None else ["--budget", str(budget)])
    text = _with_input(image, input)
    status, out, _ = _call(_wsc(wsc), words, text, timeout)
    # the image that was given has names, which the program's own print hasn't
    return Trace(reading(text).image, input_of(out), events_of(sections(out)[2] or ""), ENDED[status])


def replay(trace: Trace | str, *, wsc: str | None = None, timeout: float | None = None) -> Replay:
    """Makes the events of a trace in their order; Refused with the rule `illegal` where one can't happen."""
    _, out, _ = _call(_wsc(wsc), ["replay"], str(trace), timeout)
    *words, end, firings = out.splitlines()
    return Replay(tuple(map(int, words)), end == "rest", int(firings.split()[1]))
