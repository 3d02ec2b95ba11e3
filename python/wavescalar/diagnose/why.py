"""Explain why `wsc` refused a text or its arguments, and show the place.

WORDS are arguments of wsc. wsc-why runs it on standard input and passes on its answer and exit status; the explanation
goes to standard error. With `--of ANSWER` it runs nothing: it prints the explanation of an earlier answer to the text FILE
or standard input. With `--brief` it prints no answer, but a line `FILE:LINE:COLUMN: ..` for each place of a refusal, as
editors read it. Lines and columns (in bytes) count from 1.

    wsc-why run sum.job
    wsc-why --brief check sum.asm
    wsc-why --of 'refused 3:5 unknown' sum.job
    wsc-why -- --help            arguments of wsc that begin with a dash stand after --
"""

from __future__ import annotations

import functools
import pathlib
import sys

from wavescalar.cli import Line, add_program, text_of, whole
from wavescalar.diagnose.refusals import in_brief, of_answer, of_end, of_refusal
from wavescalar.diagnose.usage import RANGES, READS_NONE, of_usage
from wavescalar.faults import Fault
from wavescalar.numbered import answered
from wavescalar.programs import Stream, call, exchange


def parted(words: list[str]) -> tuple[list[str], str | None]:
    """The words of the program, and the file that is named among them, or nothing: what is no option, and no number
    of one."""
    if words[0] in READS_NONE:
        return words, None
    numbers = [at + 1 for at, word in enumerate(words) if word.removeprefix("--") in RANGES]
    for at, word in enumerate(words[1:], 1):
        if at not in numbers and (word == "-" or not word.startswith("-") and pathlib.Path(word).is_file()):
            return words[:at] + words[at + 1 :], word
    return words, None


def run(program: str, words: list[str]) -> tuple[int, bytes, list[str]]:
    """Runs a line of wsc: its status, its answer, the text it was given and what is said of it."""
    words, file = parted(words)
    # words that are no line are answered before anything is read, and so are commands that read no text
    status, told, said = call(program, words, "")
    if status == 1:
        return 1, told.encode(), of_usage(words, told)
    if status == 4:
        return 4, told.encode(), said.splitlines()
    if words[0] in READS_NONE:
        return status, told.encode(), of_end(status, told, words[0])
    text = text_of(file)
    data = text.encode(errors="surrogateescape")
    if told := answered(text):
        status, answer, _ = exchange([program, *words], [data], errors=Stream.DROPPED)
        return status, answer, of_answer(told)
    status, answer, _ = exchange([program, *words], [data], errors=Stream.PASSED_ON)
    told = answer.decode(errors="replace")
    if status == 2:
        return 2, answer, of_refusal(told, text, words[0], commands_of(program))
    return status, answer, of_end(status, told, words[0])


def brief(program: str, words: list[str]) -> int:
    """Prints what editors read of a line of wsc; its status."""
    file = parted(words)[1]
    if file is None or file == "-":
        raise Fault("--brief needs a command with a file")
    status, told, said = run(program, words)
    answer = told.decode(errors="replace")
    if status == 2 and not answered(text_of(file)):
        said = in_brief(answer, said, text_of(file), file)
    elif said:
        said = [f"{file}:1:1: {'; '.join(said)}"]
    print("".join(f"{line}\n" for line in said), end="")
    return status


def commands_of(program: str) -> list[str]:
    """The commands that the program's usage line names."""
    told = call(program, [], "")[1].split(" ")
    return told[2].split("|") if len(told) > 2 else []


def main() -> int:
    ask = Line(__doc__)
    add_program(ask)
    ask.add_argument("--of", metavar="ANSWER", help="explain this answer")
    ask.add_argument("--brief", action="store_true", help="print only FILE:LINE:COLUMN: .., for editors")
    ask.add_argument("words", metavar="WORDS", nargs="...", help="a command of wsc with its arguments; with --of a file")
    line = ask.parse_args()
    words = line.words[1:] if line.words[:1] == ["--"] else line.words
    if line.of is not None:
        said = of_refusal(line.of, text_of(words[0] if words else None), "", [])
        print(*(said or ["this is no refusal"]), sep="\n")
        return 0
    if not words:
        ask.error("a command of wsc is missing")
    if line.brief:
        return brief(line.wsc, words)
    status, answer, said = run(line.wsc, words)
    sys.stdout.buffer.write(answer)
    sys.stdout.flush()
    if said:
        print(*said, sep="\n", file=sys.stderr)
    return status


tool = functools.partial(whole, main)

if __name__ == "__main__":
    sys.exit(tool())
