"""Which statement an instruction stands for, found by trial.

The program tells nothing of it, so its compiler is asked: the job is compiled again with other words at its
sites (other numbers, operators, arrays, or ports in place of `print` and `read`), such that each site is
known by what stands there. An instruction that changes with a site, in an image that is otherwise the same,
stands for it: that is exact. A steer, and a `phi`, whose selector is the result of a condition stands for the
statement of that condition: that is exact too; where the condition is a variable alone, it is compared with a
number for the trial. All others are guessed: they are given the statement of an instruction near them.
"""

import sys
from typing import Any, Callable, Iterable, Iterator

from wavescalar.faults import Fault
from wavescalar.numbered import Image, Instr, read
from wavescalar.programs import call
from wavescalar.viewer.source import OPERATION, Source

# Numbers that no job is likely to have.
FIRST = 7_000_000_000_000_000_000
BINARY = list(OPERATION)
UNARY = ["-", "~", "!"]
UNARY_OPERATION = {"sub": 0, "xor": 1, "eq": 2}
ARRAYS, MOST_ARRAYS, PORTS = 7, 64, 7
# So many trials of single sites, where all at once tell nothing.
MOST_SINGLE = 200


class Kind:
    """Sites of some kinds: what digits stand for at them, and which instructions show a digit."""

    def __init__(self, kinds: tuple[str, ...], base: int, word: Callable[[int], str], digit: Callable[[Instr], int | None]):
        self.kinds, self.base, self.word, self.digit = kinds, base, word, digit


def kinds_of(arrays: int) -> tuple[int, list[Kind]]:
    """How many arrays are added to a job with so many, and the kinds."""
    more = max(0, min(ARRAYS, MOST_ARRAYS - arrays))

    def port(op: str) -> Callable[[Instr], int | None]:
        return lambda it: it.arg - 1 if it.op == op and it.arg is not None else None

    alu = {op: digit for digit, op in enumerate(OPERATION.values())}
    cell = lambda it: it.arg - 1 if it.op in ("load", "store") and it.arg <= more else None
    return more, [
        Kind(("binary",), len(BINARY), lambda digit: BINARY[digit], lambda it: alu.get(it.op)),
        Kind(("unary",), len(UNARY), lambda digit: UNARY[digit], lambda it: UNARY_OPERATION.get(it.op)),
        Kind(("load", "store"), more, lambda digit: f"new_{digit}", cell),
        Kind(("print",), PORTS, lambda digit: f"take {digit + 1},", port("take")),
        Kind(("read",), PORTS, lambda digit: f"give {digit + 1},", port("give")),
        Kind(("give",), PORTS, lambda digit: str(digit + 1), port("give")),
        Kind(("take",), PORTS, lambda digit: str(digit + 1), port("take")),
    ]


def digits_of(code: int, base: int, count: int) -> list[int]:
    """The digits of a number, the last one first."""
    return [code // base**at % base for at in range(count)]


class Trial:
    """A job, its image, and what trials tell of them: `exact` has the statements of an instruction, `at` a
    site of each instruction that has one."""

    def __init__(self, program: str, job: str, image: Image):
        self.program, self.source, self.image = program, Source(job), image
        self.exact: dict[int, list[int]] = {}
        self.at: dict[int, int] = {}
        arrays = sum(it is not None and it[0] is not None for it in image.arrays)
        self.more, kinds = kinds_of(arrays)
        self.numbers()
        for kind in kinds:
            self.digits(kind)
        self.branches()

    def compiled(self, words: dict[int, str], front: str = "", compared: dict[int, int] | None = None) -> Image | None:
        """The image of the job with these words at its sites, or nothing."""
        status, made, _ = call(self.program, ["compile"], front + self.source.printed(words, compared))
        return read(made) if status == 0 else None

    def paired(self, other: Image | None, may_differ: Callable[[Instr], bool], added: int | None = None,
               gone: int | None = None) -> dict[int, int] | None:
        """For each instruction of an image that is otherwise ours the number of ours; nothing where it isn't. One
        that was added has no pair, and so has one of ours in whose place it is.

        Equal constants of a block may be one instruction or several, so constants have no pairs.
        """
        if other is None:
            return None
        own, new = ([i for i, it in enumerate(image.instrs) if i and i != left and it.op != "const"]
                    for image, left in ((self.image, gone), (other, added)))
        exits = [[block.exit[0] for block in image.blocks[1:]] for image in (self.image, other)]
        if len(own) != len(new) or exits[0] != exits[1]:
            return None
        for i, k in zip(own, new):
            mine, it = self.image.instrs[i], other.instrs[k]
            if (mine.block, mine.note) != (it.block, it.note) or mine.op != it.op and not may_differ(it):
                return None
        return dict(zip(new, own))

    def tell(self, instr: int, site: int) -> None:
        """An instruction stands for the statement of a site."""
        here = self.exact.setdefault(instr, [])
        if self.source.sites[site].statement not in here:
            here.append(self.source.sites[site].statement)
        self.at[instr] = site

    def numbers(self) -> None:
        """Each number of the job becomes one that stands nowhere else; a constant of ours has the sites of those
        that lead to its destinations."""
        sites = [k for k, site in enumerate(self.source.sites) if site.kind == "number"]
        if not self.constants(sites):
            for k in sites[:MOST_SINGLE]:
                self.constants([k])

    def constants(self, sites: Iterable[int]) -> bool:
        """The same for these numbers alone; whether the image is otherwise ours."""
        sites = set(sites)
        other = self.compiled({k: str(FIRST + k) for k in sites})
        pairs = self.paired(other, lambda it: False)
        if pairs is None or other is None:
            return False
        # constants of several arms may lead to one port: those of one block don't
        sources = {(to, it.block): i for i, it in enumerate(self.image.instrs) if i and it.op == "const"
                   for to in it.lists[0]}
        for it in (it for it in other.instrs[1:] if it.op == "const"):
            site = it.arg - FIRST
            for to, port in it.lists[0] if site in sites else ():
                i = sources.get(((pairs.get(to), port), it.block))
                if i and self.image.instrs[i].arg == int(self.source.sites[site].word):
                    self.tell(i, site)
        return True

    def codes(self, kind: Kind, sites: list[int]) -> tuple[dict[int, int], int]:
        """A number for each site, and how many digits they have: by one of them the site is another word."""
        count = 1
        while kind.base**count <= 2 * len(sites) + 2:
            count += 1
        codes, code = {}, 0
        for k in sites:
            code += 1
            while all(kind.word(digit) == self.source.sites[k].word for digit in digits_of(code, kind.base, count)):
                code += 1
            codes[k] = code
        return codes, count

    def digits(self, kind: Kind) -> None:
        """Each site of a kind shows the digits of its number, one in each trial."""
        sites = [k for k, site in enumerate(self.source.sites) if site.kind in kind.kinds]
        if not sites or kind.base < 2:
            return
        front = "".join(f"array new_{k}[1]; " for k in range(self.more)) if "load" in kind.kinds else ""
        codes, count = self.codes(kind, sites)
        shown: dict[int, list[Instr]] = {}
        for at in range(count):
            words = {k: kind.word(digits_of(code, kind.base, count)[at]) for k, code in codes.items()}
            other = self.compiled(words, front)
            pairs = self.paired(other, lambda it: kind.digit(it) is not None)
            if pairs is None or other is None:
                self.singles(kind, sites[:MOST_SINGLE])
                return
            for k, i in pairs.items():
                shown.setdefault(i, []).append(other.instrs[k])
        site_of = {code: k for k, code in codes.items()}
        for i, seen in shown.items():
            digits = [kind.digit(it) for it in seen]
            if None not in digits and any(self.changes(i, it, front) for it in seen):
                code = sum(digit * kind.base**at for at, digit in enumerate(digits))
                if code in site_of:
                    self.tell(i, site_of[code])

    def changes(self, i: int, it: Instr, front: str) -> bool:
        """Whether an instruction is another one in a trial; arrays in front shift the numbers of ours."""
        mine = self.image.instrs[i]
        shift = self.more if front and mine.op in ("load", "store") else 0
        return (it.op, it.arg) != (mine.op, mine.arg and mine.arg + shift)

    def singles(self, kind: Kind, sites: list[int]) -> None:
        """Where all trials at once give another image: one site after the other."""
        front = "array new_0[1]; " * ("load" in kind.kinds)
        self.more = 1 if front else self.more
        for k in sites:
            digit = next(d for d in range(kind.base) if kind.word(d) != self.source.sites[k].word)
            other = self.compiled({k: kind.word(digit)}, front)
            pairs = self.paired(other, lambda it: kind.digit(it) is not None)
            if pairs is None or other is None:
                continue
            for new, i in pairs.items():
                if kind.digit(other.instrs[new]) == digit and self.changes(i, other.instrs[new], front):
                    self.tell(i, k)

    def branches(self) -> None:
        """Steers and `phi` by the condition whose result selects."""
        roots = {site: statement for statement, site in self.source.roots.items() if site is not None}
        for i, statement in [(i, roots[site]) for i, site in self.at.items() if site in roots]:
            for to in selected_by(self.image, i):
                self.exact[to] = [statement]
        for statement in [k for k, site in self.source.roots.items() if site is None][:MOST_SINGLE]:
            self.variable(statement)

    def variable(self, statement: int) -> None:
        """The same of a condition that is a variable alone: it is compared with a number that stands nowhere else.
        The comparison is the selector of a block's exit, in place of a merge, or of a `phi`."""
        other = self.compiled({}, compared={statement: FIRST})
        if other is None:
            return
        found = [to for it in other.instrs[1:] if (it.op, it.arg) == ("const", FIRST)
                 for to, _ in it.lists[0] if other.instrs[to].op == "eq"]
        if len(found) != 1 or len(other.blocks) != len(self.image.blocks):
            return
        kind, *rest = self.image.blocks[other.instrs[found[0]].block].exit
        merge = rest[0] if kind == "if" and self.image.instrs[rest[0]].op == "merge" else None
        pairs = self.paired(other, lambda it: False, found[0], merge) or {}
        for to in selected_by(other, found[0]) if pairs else ():
            self.exact[pairs[to]] = [statement]
            if merge:
                self.exact[merge] = [statement]


def selected_by(image: Image, instr: int) -> Iterator[int]:
    """The steers and `phi` whose selector is this result, through merges that spread it."""
    for to, port in image.instrs[instr].lists[0]:
        it = image.instrs[to]
        if (it.op, port) in (("steer", 1), ("phi", 2)):
            yield to
        elif it.op == "merge" and it.block == image.instrs[instr].block:
            yield from selected_by(image, to)


def guessed(trial: Trial) -> dict[int, list[int]]:
    """For each other instruction the statement of one near it: in its block before it or behind it, else of
    the one whose number is nearest. The end of the run is of no statement, and neither is a no-op of a block that
    has none: what is near it may be in an arm that isn't taken."""
    image, near = trial.image, {}
    all_known = sorted(trial.exact)
    for block in image.blocks[1:]:
        known = [i for i in block.instrs if i in trial.exact]
        alone = ("halt",) if known else ("halt", "nop")
        others = [i for i in block.instrs if i not in trial.exact and image.instrs[i].op not in alone]
        for i in others if all_known else ():
            before = [k for k in known if k < i]
            close = before[-1] if before else min(known or all_known, key=lambda k: (abs(k - i), -k))
            near[i] = trial.exact[close][-1:] if before else trial.exact[close][:1]
    return near


def statements_of(program: str, job: str, image: Image) -> tuple[list[Any], dict[int, list[Any]]]:
    """Where the statements of a job begin and end, and for each instruction the numbers of its statements and
    whether these are exact; nothing where the job can't be read."""
    sys.setrecursionlimit(10000)
    try:
        trial = Trial(program, job, image)
    except Fault:
        return [], {}
    told = {i: [statements, 0] for i, statements in guessed(trial).items()}
    told |= {i: [statements, 1] for i, statements in trial.exact.items()}
    return trial.source.statements, told
