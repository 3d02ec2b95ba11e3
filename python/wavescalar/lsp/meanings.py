"""What the words of both languages mean, in a sentence or two, for hovers and completions."""

from __future__ import annotations

from wavescalar.isa import KINDS

# The words of the language (docs/LANGUAGE.md).
STATEMENTS: dict[str, str] = {
    "proc": "`proc NAME(PARAMETERS) { .. }` declares a procedure. `main` stands last and is what runs. A procedure is "
            "visible behind its closing brace, so none calls itself.",
    "array": "`array NAME[CELLS];` declares an array of words, which begin at 0.",
    "var": "`var NAME, ..;` declares variables, before the first statement of a procedure. They begin at 0 at each call.",
    "if": "`if (e) { .. } else { .. }` takes every value but 0 as true.",
    "else": "The arm that runs where the condition is 0.",
    "while": "`while (e) { .. }` runs as long as e isn't 0. In the assembly its header begins a wave: each turn has a "
             "wave number of its own.",
    "print": "`print e;` prints a word.",
    "read": "`read x;` takes the next word of the input; 0 where none is left.",
    "give": "`give P, x;` takes the next word that port P, from 1 to 7, has left; 0 where none is left.",
    "take": "`take P, e;` hands a word to port P, from 1 to 7.",
    "return": "`return e;` is the last statement of a procedure, and gives its result; without it that is 0.",
    "%input": "Behind this line stand the words that `read` takes.",
    "%job": "This line parts several jobs of a text for `wsc multi`.",
}
OPERATORS: dict[str, str] = {
    "+": "adds, modulo 2^64", "-": "subtracts, modulo 2^64; before an operand, `0 - x`", "*": "multiplies, modulo 2^64",
    "/": "divides, without a sign; `x / 0` is 18446744073709551615", "%": "the remainder; `x % 0` is `x`",
    "&": "and, bit by bit", "|": "or, bit by bit; both sides are computed", "^": "exclusive or, bit by bit",
    "~": "flips all bits", "!": "1 for 0, else 0", "<<": "shifts left by the distance modulo 64",
    ">>": "shifts right by the distance modulo 64", "==": "1 where both are the same, else 0",
    "!=": "1 where they differ, else 0", "<": "1 where the left is less, without a sign, else 0",
    "<=": "1 where the left isn't greater, without a sign, else 0",
    ">": "1 where the left is greater, without a sign, else 0",
    ">=": "1 where the left isn't less, without a sign, else 0", "=": "gives a variable or a cell a value",
}
# The instructions (docs/ASSEMBLY.md): what each does, beside its ports.
INSTRUCTIONS: dict[str, str] = {
    "const": "gives the number K at each trigger",
    "add": "x + y, modulo 2^64", "sub": "x - y, modulo 2^64", "mul": "x · y, modulo 2^64",
    "div": "x / y without a sign; 18446744073709551615 where y is 0", "rem": "the remainder of x / y; x where y is 0",
    "and": "x and y, bit by bit", "or": "x or y, bit by bit", "xor": "x exclusive-or y, bit by bit",
    "shl": "x shifted left by y modulo 64", "shr": "x shifted right by y modulo 64",
    "eq": "1 where x is y, else 0", "ne": "1 where x isn't y, else 0", "lt": "1 where x < y, else 0",
    "le": "1 where x ≤ y, else 0", "gt": "1 where x > y, else 0", "ge": "1 where x ≥ y, else 0",
    "merge": "the value; it spreads long lists, and joins what comes from two arms",
    "advance": "the value, under the next wave number; it stands in the first block of a wave",
    "steer": "the value, to the list before `|` where the selector isn't 0, else to the list after it",
    "phi": "the value of port 0 where the selector isn't 0, else that of port 1",
    "send": "sends the value to pad K of the landing at the address, a place, from 0, in the list of the block's exit",
    "load": "the cell of array A at the index; once the chain has passed its ripple number it may go before its turn",
    "store": "writes the value into the cell of array A at the index",
    "in": "the next word of the input; 0 where none is left", "out": "prints the value",
    "give": "the next word that port P of the outside gives; 0 where none is left",
    "take": "hands the value to port P of the outside",
    "nop": "does nothing: it gives a path of the wave its memory operation",
    "halt": "ends the program; it stands behind the other memory operations of a block with the exit `stop`",
}
PORTS: dict[str, tuple[str, ...]] = {
    "const": ("trigger",), "merge": ("value",), "advance": ("value",), "steer": ("value", "selector"),
    "phi": ("value where the selector isn't 0", "value where it is 0", "selector"), "send": ("address", "value"),
    "load": ("index",), "store": ("index", "value"), "in": ("trigger",), "out": ("value",), "give": ("trigger",),
    "take": ("value",), "nop": ("trigger",), "halt": ("trigger",),
}
LINES: dict[str, str] = {
    "wavescalar": "The version of the text: 1, or 2, which has names.",
    "array": "`array NAME LENGTH` is an array, which `--memory` shows. Arrays go by number, from 1.",
    "hidden": "`hidden LENGTH` is an array that `--memory` doesn't show. Arrays go by number, from 1.",
    "wave": "`wave K` begins a wave: blocks without a loop, entered at the first of them.",
    "block": "`block B` begins a block: instructions that are run as a whole or not at all, and an exit.",
    "pad": "`pad K I.P ..`: what is sent to pad K of this block goes to these ports. The run begins at pad 0 of block 1.",
    "go": "`go B`: block B comes next.", "if": "`if S B C`: block B comes next where the result of S isn't 0, else C.",
    "stop": "The walk stops after this block.", "end": "The last line.",
    "%input": "Behind this line stand the words that the program reads.",
    "%trace": "Behind this line stand the events of a run, for `wsc replay`.",
}
SEND_EXIT = "`send S L M ..`: the landing comes next whose place in the list, from 0, is the result of S."
ARGUMENTS = {"word": "K", "pad": "K", "array": "A", "port": "P"}


def ports_of(op: str) -> tuple[str, ...]:
    """What comes to the ports of an instruction, port 0 first."""
    return PORTS.get(op) or ("x", "y")


def form_of(op: str) -> str:
    """How an instruction is written."""
    kind = KINDS[op]
    words = ["N:", op]
    words += [ARGUMENTS[kind.argument]] if kind.argument else []
    words += ["<PRED, SEQ, SUCC>.RIPPLE"] if kind.memory else []
    words += [["", "-> I.P ..", "-> I.P .. | I.P .."][kind.lists]]
    return " ".join(words).strip()


def instruction(op: str) -> str:
    """An instruction as Markdown: its form, what it does, its ports."""
    ports = ", ".join(f"{at} {what}" for at, what in enumerate(ports_of(op)))
    memory = " A memory operation: its note tells the order of the program." if KINDS[op].memory else ""
    return f"```\n{form_of(op)}\n```\n{INSTRUCTIONS[op][0].upper()}{INSTRUCTIONS[op][1:]}. Ports: {ports}.{memory}"
