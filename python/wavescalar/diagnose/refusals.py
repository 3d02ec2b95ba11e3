"""Texts that are refused: what is wrong with them, and where."""

from __future__ import annotations

import re
from typing import Any

from wavescalar.diagnose.usage import like
from wavescalar.faults import Fault
from wavescalar.isa import KINDS, RESERVED, Kind
from wavescalar.numbered import LEXEME, kind_of, read, sections
from wavescalar.reader import lines_of

JOB = {
    "byte": "this byte begins no lexeme of the language",
    "wide": "this number is 2^64 or more",
    "syntax": "no program goes on with this lexeme here, or the text ends too early",
    "unknown": "no such name is visible here; arrays and procedures are visible after their declaration, "
    "so a procedure can't call itself",
    "twice": "this name is visible already and can't be declared again",
    "kind": "this name stands for something else: an array, a procedure or a variable",
    "count": "the call has another number of arguments than the procedure has parameters",
    "main": "`main` is missing, isn't the last procedure, or has parameters",
    "input": "an input word is a run of digits below 2^64",
    "threads": "a text has at most four jobs, which three lines `%job` separate",
}
LINE = {
    "line": "the line has none of the forms that may stand here",
    "number": "a number in the line isn't the next in count, names something that isn't there, or is too large",
    "limit": "the line passes a limit",
    "version": "the first line has to be `wavescalar 1` or `wavescalar 2`",
    "name": "this name is given twice, or names nothing",
    "illegal": "this event isn't enabled after those before it",
}
NOTE = "<PRED, SEQ, SUCC>.RIPPLE"
# How a line names an argument.
ARGUMENTS = {"word": "K", "pad": "K", "array": "A", "port": "P"}


def form_of(op: str, kind: Kind) -> str:
    """How the line of an instruction reads."""
    lists = " | ".join(["I.P .."] * kind.lists)
    parts = [f"N: {op}", ARGUMENTS[kind.argument] if kind.argument else "", NOTE if kind.memory else "",
             f"-> {lists}" if lists else ""]
    return " ".join(filter(None, parts))


FORMS = {op: form_of(op, kind) for op, kind in KINDS.items()}
HINTS = {
    "&&": "there is no `&&`: `&` works on bits, and both sides are computed", "||": "there is no `||`: use `|`",
    "//": "comments begin with `#`", "++": "there is no `++`: write `x = x + 1;`",
    "+=": "there is no `+=`: write `x = x + ..;`", "-=": "there is no `-=`: write `x = x - ..;`",
}
SOUND = {
    "port": "instruction {0}, port {1}: on some path no token comes to it, or two do",
    "pending": "the paths through blocks {0} and {1} leave different ports with a token that waits",
    "link": "memory operations {0} and {1}: their wave-order notes don't follow each other on some path "
    "(0 stands for the start or the end of the wave; one number twice: its own sequence number)",
    "ripple": "memory operation {0}: its ripple number is wrong beside the writing operation {1} "
    "(one number twice: that of a writing operation is its own sequence number)",
    "shape": "block {0}: its instructions, pads or exit stand where they may not",
    "arm": "block {0}: its branch leads neither to two blocks of the wave that no other edge enters, nor to two first "
    "blocks of waves, and its paths need a no-op: branch to blocks of their own that go on there",
    "trigger": "block {0} needs a no-op, and nothing in it could trigger one: give it a `merge` of the pulse",
    "full": "instruction {0}: a list has to name a no-op too, and has 8 destinations: spread them by a `merge`",
}
JOBS = ("run", "plain", "format", "compile", "multi")
WITH_INPUT = "(wsc compile < JOB; sed -n '/^%input/,$p' JOB)"
ENDS = {
    3: "the run takes more than it may: see --{0}",
    6: "the port failed: standard error, which is port 1, can't be written",
    7: "memory ran out",
    8: "an index isn't less than the array's length; `--memory` shows the arrays as they stand there",
}


# What a line of another language has where the program finds a fault, with what is written here.
FOREIGN = [
    (r"\bfor\s*\($", r"", "there is no `for`: use `while`"),
    (r"\bfor\s*\(\s*\w+\s*$", r"=", "there is no `for`: use `while`"),
    (r"\bvar\s+[\w\s,]*$", r"=", "all variables begin at 0; give one another value in a statement"),
    (r"[^=;{}]*[\w)\]]\s*[-+*/%&|^<>=!(,]\s*\w+\s*$", r"\(", "a call is a statement of its own: `x = f(..);`"),
    (r"\b(print|return)\s+\w+\s*$", r"\(", "a call is a statement of its own: `x = f(..);`"),
    (r"", r"return\b", "`return` is the last statement of a procedure, outside of all arms and bodies"),
    (r"\breturn\b[^;{}]*;\s*$", r"", "`return` is the last statement of a procedure"),
    (r"", r"\"", "there are no strings: only words are printed"),
    (r"\b0$", r"[xXbB]\w", "numbers are decimal"),
    (r"\b(int|let|const|def|fn|func|function|void)\s*$", r"", "variables are declared by `var`, procedures by `proc`"),
    (r"", r"(int|let|const|def|fn|func|function|void)\b", "variables are declared by `var`, procedures by `proc`"),
]
BOM = b"\xef\xbb\xbf"


def shown(lines: list[str], number: int, column: int | None = None) -> list[str]:
    """The line with its number, and a caret."""
    out = [f"{number:6} | {lines[number - 1] if number <= len(lines) else ''}"]
    if column:
        front = lines[number - 1].encode(errors="surrogateescape")[: column - 1].decode(errors="replace")
        out.append("       | " + "".join("\t" if c == "\t" else " " for c in front) + "^")
    return out


def of_end(status: int, answer: str, command: str) -> list[str]:
    """What a status says that is no refusal."""
    if status not in ENDS:
        return []
    said = ENDS[status].format("turns" if command == "plain" else "budget")
    return [said] if status != 8 or "fault" in answer else []


def led_on(text: str, command: str, commands: list[str]) -> list[str]:
    """The command that reads such a text, where this one doesn't."""
    kind = kind_of(text)
    is_job = kind == "job" and re.search(r"\bproc\s+\w+\s*\(", text)
    if command in JOBS and kind == "trace":
        return ["this text is a trace; `wsc replay` makes its events"]
    if command in JOBS and kind == "assembly":
        return ["this text is an assembly; `wsc exec` runs it, `wsc check` and `wsc list` read it"]
    if command in JOBS and "multi" in commands and command != "multi" and "%job" in lines_of(text):
        return ["lines `%job` separate several jobs; `wsc multi` runs them"]
    if command and command not in JOBS and is_job:
        done = {"check": " | wsc check", "list": " | wsc list"}.get(command, f" | wsc {command}")
        if command == "replay":
            done = " | wsc trace | wsc replay"
        return [f"this text is a job; `wsc run` runs it. Its assembly with its input:  {WITH_INPUT}{done}"]
    if command in ("exec", "check", "list", "trace", "grid", "decouple") and kind == "trace":
        return [f"this text has a trace; `wsc replay` makes its events, `wsc {command}` takes what stands before "
                "the line %trace"]
    return []


def of_answer(told: str) -> list[str]:
    """What is said of a text that is itself an answer: what a call before it in a pipe was refused for."""
    said = [f"the text is itself an answer, that of the call before it: {told}"]
    words = told.split()
    if words[0] == "refused" and len(words) > 2 and words[1][0].isdigit():
        said.append(JOB.get(words[2], f"the limit `{words[-1]}` of the language is passed there") if ":" in words[1]
                    else LINE.get(words[2], words[2]))
    elif words[0] == "refused" and words[1] in SOUND:
        said.append(SOUND[words[1]].format(*words[2:]))
    return said


def of_refusal(answer: str, text: str, command: str, commands: list[str]) -> list[str]:
    """What a refusal says, and its place; nothing where the answer is no refusal."""
    words, lines = answer.split(), lines_of(text)
    if words[:1] != ["refused"] or len(words) < 2:
        return []
    if words[1] == "long":
        return ["the text is too long: a job may have 1 MiB, an assembly with its sections 128 MiB"]
    if led := led_on(text, command, commands):
        return led
    if place := re.fullmatch(r"(\d+):(\d+)", words[1]):
        return of_place(lines, int(place[1]), int(place[2]), words[2:])
    if words[1].isdigit():
        return of_line(lines, int(words[1]), words[2], text) + of_trace(text, lines, int(words[1]), command)
    return of_rule(text, lines, words[1], words[2:])


def of_place(lines: list[str], number: int, column: int, words: list[str]) -> list[str]:
    """A refusal at a line and a column."""
    line = lines[number - 1] if number <= len(lines) else ""
    data = line.encode(errors="surrogateescape")
    front, rest = data[: column - 1].decode(errors="replace"), data[column - 1 :].decode(errors="replace")
    said = JOB.get(words[0]) or f"the limit `{words[-1]}` of the language is passed here"
    out = shown(lines, number, column) + [said]
    marks = (front[-1:] + rest[:1], rest[:2])
    out += [f"hint: {hint}" for mark, hint in HINTS.items() if mark in marks]
    if words[0] == "byte" and data.startswith(BOM) and (number, column) == (1, 1):
        return shown(lines, 1) + ["the text begins with a byte order mark: save it as UTF-8 without one"]
    if words[0] == "syntax" and line.strip() == "%input":
        return shown(lines, number, column) + ["the line %input has to be exactly that: a blank stands in it"]
    if words[0] in ("syntax", "byte", "unknown"):
        hints = [hint for before, behind, hint in FOREIGN if re.search(before, front) and re.match(behind, rest)]
        out += [f"hint: {hint}" for hint in hints[:1]]
    if words[0] == "syntax" and front.rstrip().endswith("else"):
        out.append("hint: an `if` after `else` needs braces: `else { if .. }`")
    if words[0] == "syntax" and not front.strip() and number > 1:
        out.append("hint: look at the end of the line before too; a `;` may be missing there")
    if words[0] == "syntax" and rest.startswith("var"):
        out.append("hint: all `var` stand before a procedure's first statement")
    if words[0] == "unknown" and (name := re.match(r"\w+", rest)):
        names = {word for other in lines for word in re.findall(r"[A-Za-z_]\w*", other.split("#")[0])}
        near = like(name[0], sorted(names - {*RESERVED, name[0]}))
        out += ["hint:" + near.removeprefix(";")] if near else []
    return out


def of_line(lines: list[str], number: int, word: str, text: str) -> list[str]:
    """A refusal of a line of an assembly or a trace."""
    out = shown(lines, number) + [LINE.get(word, word)]
    line = lines[number - 1].split("#")[0] if number <= len(lines) else ""
    found = re.match(r"\s*\w+\s*:\s*(\w+)", line)
    if word == "line" and found:
        form = FORMS.get(found[1])
        out.append(f"its form is: {form}" if form
                   else f"there is no instruction `{found[1]}`{like(found[1], list(FORMS))}")
    if word == "line":
        out += [f"hint: {hint}" for hint in of_form(lines, line)[:1]]
    if word == "line" and not line.strip() and number >= len(lines):
        out.append("the text ends too early: is `end` missing?")
    if word == "name":
        names = re.findall(r"^\s*(?:block\s+)?([A-Za-z_]\w*)\s*(?::|$)", text, re.M)
        for name in LEXEME.findall(line):
            out += [f"hint: `{name}`" + like(name, names)] if name[0].isalpha() and name not in names \
                and like(name, names) else []
    return out


def of_form(lines: list[str], line: str) -> list[str]:
    """What is often written in a line of an assembly that has none of the forms."""
    first = next((it.split("#")[0] for it in lines if it.split("#")[0].strip()), "")
    if ";" in line:
        found = ["comments begin with `#`"]
    elif first.split()[:1] != ["wavescalar"]:
        found = ["the first line is `wavescalar 1` or `wavescalar 2`"]
    elif re.search(r"\bconst\s+(-|\+|0[xob])", line):
        found = ["numbers are decimal, from 0; -1 is 18446744073709551615"]
    elif re.search(r"\b(load|store)\s+[A-Za-z_]", line):
        found = ["an array goes by its number, from 1 in the order of the lines `array` and `hidden`"]
    elif first.split()[1:] == ["1"] and re.search(r"^\s*(block\s+[A-Za-z_]|[A-Za-z_]\w*\s*:|(go|if|send|pad)\b.*[A-Za-z_])"
                                                r"|->.*[A-Za-z_]", line):
        found = ["names stand in version 2 alone: begin the text with `wavescalar 2`"]
    elif re.search(r"^\s*(block|go)\s+\S*[^\w\s]|^\s*\w*[^\w\s:]\S*\s*:", line):
        found = ["a name is a letter or `_`, then letters, digits and `_`"]
    else:
        found = []
    return found


def of_trace(text: str, lines: list[str], number: int, command: str) -> list[str]:
    """What `replay` lacks, where the text has no trace."""
    if command != "replay" or sections(text)[2]:
        return []
    if number <= len(lines) and lines[number - 1] == "%trace":
        return ["hint: before the line %trace stands a line %input, also where the program reads nothing"]
    return ["this assembly has no line %trace; `wsc replay` takes what `wsc trace` prints: "
            "wsc trace < FILE | wsc replay"] if number >= len(lines) else []


def of_rule(text: str, lines: list[str], rule: str, words: list[str]) -> list[str]:
    """A rule that an image breaks, with the names and the lines of what its numbers name."""
    if rule == "many":
        return ["there is no room for the no-ops: an image has 4,194,304 instructions at most"]
    numbers = [int(word) for word in words]
    out = [SOUND[rule].format(*called(text, rule, numbers))]
    for number in lines_of_rule(text, rule, numbers):
        out += shown(lines, number)
    return out


def items_of_rule(text: str, rule: str) -> list[Any]:
    """What the numbers of a rule count: the blocks or the instructions of a text, none where it can't be read."""
    try:
        image = read(text)
    except Fault:
        return []
    return image.blocks if rule in ("pending", "shape", "arm", "trigger") else image.instrs


def called(text: str, rule: str, numbers: list[int]) -> list[int | str]:
    """The numbers of a rule, with the names that the text has for what they count."""
    items = items_of_rule(text, rule)
    counted = 1 if rule == "port" else len(numbers)
    names: list[str | None] = [items[n].name if 0 < n < len(items) else None for n in numbers[:counted]]
    told: list[int | str] = []
    for number, name in zip(numbers, names):
        told.append(f"{number} ({name})" if name else number)
    return [*told, *numbers[counted:]]


def lines_of_rule(text: str, rule: str, numbers: list[int]) -> list[int]:
    """The lines, from 1, of the blocks or instructions that the numbers of a rule name."""
    items = items_of_rule(text, rule)
    named = dict.fromkeys(numbers[:1] if rule == "port" else numbers)
    return [items[number].line for number in named if 0 < number < len(items)]


def places_of(answer: str, text: str) -> list[tuple[int, int]]:
    """The lines and columns, from 1, that a refusal is about: the start of the text where it has none."""
    words, last = answer.split(), max(len(lines_of(text)), 1)
    if place := re.fullmatch(r"(\d+):(\d+)", words[1]):
        found = [(int(place[1]), int(place[2]))]
    elif words[1].isdigit():
        found = [(int(words[1]), 1)]
    elif words[1] in SOUND:
        found = [(line, 1) for line in lines_of_rule(text, words[1], [int(word) for word in words[2:]])]
    else:
        found = []
    return [(min(line, last), column) for line, column in found] or [(1, 1)]


def in_brief(answer: str, said: list[str], text: str, name: str) -> list[str]:
    """A refusal as compilers tell theirs, `NAME:LINE:COLUMN: ..`: a line for each place."""
    told = "; ".join(line for line in said if not re.match(r" *\d* \| ", line))
    return [f"{name}:{line}:{column}: {answer.strip()}: {told}" for line, column in places_of(answer, text)]
