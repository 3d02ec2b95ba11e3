#!/usr/bin/env python3
"""Compiles each program of this folder, and compares what it prints with what it means.

    PYTHONPATH=../../python WSC=../../wsc WSL=../../wsl ./check.py
"""

import pathlib
import sys
from collections.abc import Callable

from blocks import OPS, Basic, Code
from tac import draft_of
from wavescalar import check, link, run
from wavescalar.isa import WORDS

HERE = pathlib.Path(__file__).resolve().parent
PAGE = HERE.parent.parent / "docs" / "BACKEND.md"
DO: dict[str, Callable[[int, int], int]] = {
    "add": lambda a, b: a + b, "sub": lambda a, b: a - b, "mul": lambda a, b: a * b,
    "div": lambda a, b: a // b if b else WORDS - 1, "rem": lambda a, b: a % b if b else a,
    "and": lambda a, b: a & b, "or": lambda a, b: a | b, "xor": lambda a, b: a ^ b,
    "shl": lambda a, b: a << b % 64, "shr": lambda a, b: a >> b % 64,
    "eq": lambda a, b: a == b, "ne": lambda a, b: a != b, "lt": lambda a, b: a < b,
    "le": lambda a, b: a <= b, "gt": lambda a, b: a > b, "ge": lambda a, b: a >= b,
}


def meaning(text: str, given: list[int]) -> list[int]:
    """What a program prints that reads these words: block by block, with a stack of calls."""
    code = Code(text)
    cells = {name: [0] * length for name, length in code.arrays.items()}
    unread, here, blocks = list(given), code.blocks["main"], code.blocks
    out: list[int] = []
    names: dict[str, int] = {}
    stack: list[tuple[Basic, dict[str, int]]] = []

    def of(word: str) -> int:
        return int(word) if word.isdigit() else names.get(word, 0)

    while True:
        for words in here.body:
            match words:
                case ["print", x]:
                    out.append(of(x))
                case [x, "=", "read"]:
                    names[x] = unread.pop(0) if unread else 0
                case [x, "=", y]:
                    names[x] = of(y)
                case [x, "=", y, op, z]:
                    names[x] = int(DO[OPS[op]](of(y), of(z))) % WORDS
                case [x, "=", a, "[", i, "]"]:
                    names[x] = cells[a][of(i)]
                case [a, "[", i, "]", "=", x]:
                    cells[a][of(i)] = of(x)
        match here.exit:
            case ["goto", label]:
                here = blocks[label]
            case ["if", c, yes, no]:
                here = blocks[yes if of(c) else no]
            case ["call", callee, after]:
                stack.append((blocks[after], names))
                names, here = dict(zip(code.params[callee], map(of, here.given))), blocks[callee]
            case ["return", x]:
                answer = of(x)
                here, names = stack.pop()
                names = names | {here.takes()[1]: answer}
            case _:
                return out


def listings() -> list[str]:
    """The waves that the page of this example shows."""
    shown = PAGE.read_text().partition("\n## A small back end\n")[2].partition("\n## ")[0]
    pieces = [piece.replace("\n    ", "\n").strip() for piece in shown.split("\n\n")]
    return [piece for piece in pieces if piece.startswith("wave ")]


def main() -> int:
    looked = wrong = 0
    made: list[str] = []
    for file in sorted(HERE.glob("*.tac")):
        text = file.read_text()
        draft = draft_of(text)
        image = link(draft)
        check(image)
        made += [str(draft), str(image)]
        for words in ([0], [1], [5], [13]):
            looked += 1
            want, got = meaning(text, words), run(image, words, workers=4)
            if (list(got.words), got.ending) != (want, "halt"):
                wrong += 1
                print(f"{file.name} on {words}: {got} in place of {want}")
    for piece in listings():
        looked += 1
        if not any(f"\n{piece}\n" in text for text in made):
            wrong += 1
            print(f"{PAGE.name}: no program gives\n{piece}")
    print(f"{looked} looked at, {wrong} wrong")
    return 1 if wrong or not looked else 0


if __name__ == "__main__":
    sys.exit(main())
