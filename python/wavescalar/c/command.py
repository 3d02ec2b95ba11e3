"""The command `wscc`: from files of C to an image of the dataflow machine, its run, and a native run beside it."""

from __future__ import annotations

import argparse
import functools
import os
import sys
from collections.abc import Sequence
from dataclasses import dataclass
from pathlib import Path

from wavescalar.c import draft_of, optimized
from wavescalar.c.clang import DIFFERS, HEADERS, Clang
from wavescalar.c.faults import Refusal, ToolFault
from wavescalar.c.flow import Graph
from wavescalar.c.follow import follow
from wavescalar.cli import Line, whole
from wavescalar.faults import BuildFault, CallFault, Refused
from wavescalar.image import Image
from wavescalar.programs import NONE_BUILT, Stream, call, exchange, usual
from wavescalar.tools import link

FAULT = 8  # the status of `wsc exec` where an index is past the end of an array
PASSED_ON = (4, 5, 7)  # statuses of wsl that are ours too: reading, writing, memory
STATUS = """The exit status is 0; 1 for wrong arguments; 2 if clang or a later pass refuses
the program, with the line of C, the reason and the instruction; 4 if a file
can't be read, 5 if one can't be written; 7 if memory ran out; 70 if clang,
opt, LLVM's library, wsc or wsl is missing. With --run it is that of `wsc
exec`; an index fault is reported with its line of C. With --verify it is 9 if
the native program prints other words, or doesn't end."""


def _parser() -> argparse.ArgumentParser:
    parser = Line("Compile C files for the dataflow machine. The compiler isn't proved: wsl annotates\n"
                  "its output, and wsc checks the result.", prog="wscc", epilog=STATUS)
    parser.add_argument("files", metavar="FILE.c", type=Path, nargs="+", help="the files of one program")
    parser.add_argument("--headers", action="version", version=str(HEADERS),
                        help="print the folder of wavescalar.h, for a native compiler, and exit")
    parser.add_argument("-o", dest="out", metavar="FILE.asm", type=Path,
                        help="the file of the assembly (standard output)")
    parser.add_argument("-O", dest="level", type=int, choices=(0, 1, 2), default=1,
                        help="the level of optimization (1)")
    parser.add_argument("-I", dest="folders", metavar="DIR", action="append", default=[], help="search this folder for headers")
    parser.add_argument("-D", dest="macros", metavar="NAME[=VALUE]", action="append", default=[], help="define a macro")
    parser.add_argument("-std", metavar="STANDARD", help="the standard of C, such as c11")
    parser.add_argument("-W", dest="warnings", metavar="WARNING", action="append", default=[], help="as clang's -Wall")
    parser.add_argument("-w", dest="silent", action="store_true", help="no warnings")
    parser.add_argument("--emit-llvm", action="store_true", help="print the IR that is compiled, not the assembly")
    parser.add_argument("--draft", action="store_true", help="print unannotated assembly, as wsl takes it")
    parser.add_argument("-g", dest="lines", action="store_true",
                        help="end names of instructions with their lines of C, such as sum_L12")
    parser.add_argument("--result", action="store_true", help="print main's result, as the last word")
    parser.add_argument("--run", action="store_true", help="run it by `wsc exec`; print no assembly")
    parser.add_argument("--text", action="store_true",
                        help="write the printed words as the characters of a text")
    parser.add_argument("--verify", action="store_true",
                        help="as --run; also run it natively on the same words, and compare what both print")
    parser.add_argument("--workers", metavar="N", type=int, default=1, help="workers of the run, 1 to 8")
    parser.add_argument("--input", metavar="FILE", type=Path,
                        help="the input words of the run (none)")
    parser.add_argument("--arg", dest="arguments", metavar="TEXT", action="append", default=[],
                        help="an argument of main, after the program's name; argv[0] is empty")
    parser.add_argument("--stdin", metavar="FILE", type=Path,
                        help="what the program reads as standard input, in place of words")
    parser.add_argument("--words", action="store_true",
                        help="print the input words, with those of --arg and --stdin, not the assembly")
    parser.add_argument("--budget", metavar="N", type=int, default=4_000_000, help="firings of the run, at most 4000000")
    parser.add_argument("--stats", action="store_true", help="print the firings of the run")
    return parser


def main(words: Sequence[str] | None = None) -> int:
    """Does what a line of words asks for; the status."""
    parser = _parser()
    asked = parser.parse_args(words)
    if asked.result and (asked.verify or asked.text):
        parser.error("--result prints a word more than the program: it doesn't go with --verify or --text")
    if asked.input and asked.stdin:
        parser.error("--input and --stdin don't go together: natively both are standard input")
    try:
        return _answer(asked)
    except Refusal as refusal:
        return _ended(2, str(refusal))
    except (Refused, BuildFault) as fault:
        return _ended(2, f"{asked.files[0]}: refused: the machine's limits: {fault}")
    except ToolFault as fault:
        return _ended(fault.status, f"wscc: {fault}")
    except CallFault as fault:
        return _ended(fault.status if fault.status in PASSED_ON else NONE_BUILT, f"wscc: {fault}")
    except OSError as fault:
        return _ended(4 if fault.filename != str(asked.out) else 5, f"wscc: {fault.filename}: {fault.strerror}")


tool = functools.partial(whole, main)


def _ended(status: int, line: str) -> int:
    print(line, file=sys.stderr)
    return status


def _for_clang(asked: argparse.Namespace) -> list[str]:
    """The words of the line that are clang's."""
    more = [f"-I{folder}" for folder in asked.folders] + [f"-D{macro}" for macro in asked.macros]
    more += [f"-W{warning}" for warning in asked.warnings] + ["-w"] * asked.silent
    return more + ([f"-std={asked.std}"] if asked.std else [])


def _answer(asked: argparse.Namespace) -> int:
    for file in asked.files:
        with file.open():  # so that a file that can't be read is told of in our words
            pass
    tools = Clang.found()
    built = tools.built(asked.files, asked.level, _for_clang(asked), asked.text)
    if asked.emit_llvm:
        _write(asked, built.text.decode(errors="surrogateescape"))
        return 0
    given = _given(asked, built.takes_arguments)
    if asked.words:
        _write(asked, given.words)
        return 0
    graph = optimized(built.text, str(asked.files[0]), tools.version(), asked.result)
    image = draft_of(graph, asked.lines)
    image = image if asked.draft else link(image)
    runs = asked.run or asked.verify
    if asked.out or not runs:
        _write(asked, str(image))
    if not runs:
        return 0
    status = _verify(asked, tools, image, given) if asked.verify else _run(asked, image, given.words)
    if status == FAULT:
        _say_where(graph, given.words)
    return status


@dataclass(frozen=True)
class _Given:
    """What a run reads: words, one in a line, and natively a text."""

    words: str
    text: str


def _given(asked: argparse.Namespace, takes_arguments: bool) -> _Given:
    """The input as library.c takes it: arguments of main, then standard input, or words."""
    words: list[int] = []
    if takes_arguments:
        words = [len(asked.arguments), *(word for text in asked.arguments for word in _counted(os.fsencode(text)))]
    before = "".join(f"{word}\n" for word in words)
    if asked.stdin:
        data = asked.stdin.read_bytes()
        return _Given(before + "".join(f"{word}\n" for word in _counted(data)), data.decode(errors="surrogateescape"))
    text = asked.input.read_text(errors="surrogateescape") if asked.input else ""
    return _Given(before + text, text)


def _counted(data: bytes) -> list[int]:
    """A text as words: its length, and its bytes."""
    return [len(data), *data]


def _say_where(graph: Graph, given: str) -> None:
    """Says the line of C at which an index went past the end of an array."""
    words = [int(word) for line in given.splitlines() for word in line.partition("#")[0].split()]
    past = follow(graph, words).past
    if past and past.place:
        name = graph.arrays[past.array or 0].name or "a hidden array"
        print(f"{past.place}: past the end of {name}", file=sys.stderr)


def _write(asked: argparse.Namespace, text: str) -> None:
    if asked.out:
        asked.out.write_text(text, errors="surrogateescape")
    else:
        sys.stdout.write(text)
        sys.stdout.flush()


def _exec(asked: argparse.Namespace) -> list[str]:
    """The words of the run."""
    words = ["exec", "--workers", str(asked.workers), "--budget", str(asked.budget)]
    return words + ["--stats"] * asked.stats


def _run(asked: argparse.Namespace, image: Image, given: str) -> int:
    """Runs the image by `wsc exec`, whose answer and status are ours."""
    if asked.text:
        return _answered(asked, image, given)[0]
    text = f"{image}%input\n{given}".encode(errors="surrogateescape")
    return exchange([usual(), *_exec(asked)], [text], answer=Stream.PASSED_ON, errors=Stream.PASSED_ON)[0]


def _answered(asked: argparse.Namespace, image: Image, given: str) -> tuple[int, list[str]]:
    """Runs the image by `wsc exec`, and passes its answer on; its status, and the words that were printed.

    Of a text the characters go to standard output, and how the run ended to standard error.
    """
    status, told, errors = call(usual(), _exec(asked), f"{image}%input\n{given}")
    lines = told.splitlines(keepends=True)
    count = next((k for k, line in enumerate(lines) if not line.strip().isdigit()), len(lines))
    words = [line.strip() for line in lines[:count]]
    if asked.text:
        sys.stdout.buffer.write(bytes(int(word) % 256 for word in words))
        sys.stdout.flush()
        sys.stderr.write("".join(lines[count:]))
    else:
        sys.stdout.write(told)
        sys.stdout.flush()
    sys.stderr.write(errors)
    return status, words


def _verify(asked: argparse.Namespace, tools: Clang, image: Image, given: _Given) -> int:
    """Runs the image, and the program natively, and compares the words, or of a text the characters."""
    status, words = _answered(asked, image, given.words)
    if status:
        return status
    printed = tools.native(asked.files, given.text, _for_clang(asked), arguments=asked.arguments)
    wanted = [str(code) for code in printed.encode(errors="surrogateescape")] if asked.text else printed.split()
    what = "character" if asked.text else "word"
    if words == wanted:
        return _ended(0, f"verified {len(words)} {what}s: natively they are the same")
    at = next((k for k, (one, other) in enumerate(zip(words, wanted)) if one != other), min(len(words), len(wanted)))
    ours, theirs = (some[at] if at < len(some) else "none" for some in (words, wanted))
    return _ended(DIFFERS, f"{asked.files[0]}: {what} {at + 1} is {ours}, and natively {theirs}")
