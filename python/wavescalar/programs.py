"""Starts other programs, and calls wsc: compiles jobs, and traces what they compile to.

No other module of the package starts a process, but for `c/clang.py`, which calls clang and what it makes.
"""

from __future__ import annotations

import contextlib
import enum
import os
import pathlib
import shutil
import subprocess
import sys
import tempfile
import threading
import time
from collections.abc import Iterable, Iterator, Mapping, Sequence
from dataclasses import dataclass
from typing import IO

from wavescalar.faults import CallFault, Fault
from wavescalar.numbered import kind_of, sections
from wavescalar.reader import lines_of

# The top of the repository, or of what ./install and ./release lay down; of a package that pip has installed its folder's
# folder, which has nothing of either.
ROOT = pathlib.Path(__file__).resolve().parent.parent.parent
# Its own limit for the events of a trace.
MOST_TRACED = 100000
# The wrapper's status where it has no program.
NONE_BUILT = 70


def usual() -> str:
    """The program that is called where the line names none."""
    beside = ROOT / "wsc"
    return os.environ.get("WSC") or (str(beside) if beside.is_file() else "wsc")


def usual_linker() -> str:
    """The linker that is called where nothing names one."""
    beside = ROOT / "wsl"
    return os.environ.get("WSL") or (str(beside) if beside.is_file() else "wsc-link")


class Stream(enum.Enum):
    """What becomes of what a program writes: it is kept, it goes where ours goes, or it is dropped."""

    KEPT = subprocess.PIPE
    PASSED_ON = None
    DROPPED = subprocess.DEVNULL


# A program that runs.
Child = subprocess.Popen[bytes]


@dataclass(frozen=True)
class Measured:
    """How a measured call ended, what it wrote to standard output, and what it took.

    status: below 0 where a signal ended it.
    wall, user, system: seconds by the clock, and of processor in the program and in the kernel.
    kilobytes: the most that the program, or a child of it that it waited for, had at a time.
    """

    status: int
    answer: bytes
    wall: float
    user: float
    system: float
    kilobytes: int


def start(line: Sequence[str], source: int | IO[bytes] = subprocess.PIPE, sink: Stream | IO[bytes] = Stream.KEPT,
          errors: Stream = Stream.KEPT, folder: str | None = None, environment: Mapping[str, str] | None = None,
          is_group: bool = False) -> Child:
    """Starts a program. is_group: it is a group of processes of its own, to which belong all that it starts. Raises
    CallFault where it can't be run."""
    try:
        return subprocess.Popen(line, stdin=source, stdout=sink.value if isinstance(sink, Stream) else sink,
                                stderr=errors.value, cwd=folder, env=environment, start_new_session=is_group)
    except OSError as fault:
        raise CallFault(f"{line[0]} can't be run: {fault.strerror}") from fault


def heard(child: Child, seconds: float) -> tuple[bytes, bytes] | None:
    """What a program that reads a file wrote to its two outputs until its end; nothing where it hasn't ended within so many
    seconds, and then this can be asked again."""
    try:
        return child.communicate(timeout=seconds)
    except subprocess.TimeoutExpired:
        return None


@contextlib.contextmanager
def ended_after(child: Child, seconds: float | None) -> Iterator[threading.Event]:
    """Ends a program that takes longer, where a time is told; the event says that this happened."""
    late = threading.Event()

    def end() -> None:
        late.set()
        child.kill()

    timer = threading.Timer(seconds or 0, end)
    if seconds is not None:
        timer.start()
    try:
        yield late
    finally:
        # also where the key for an interrupt ends this: nothing waits for a timer
        timer.cancel()


def relay(source: IO[bytes], kept: list[str]) -> None:
    """Keeps what a program writes to standard error, and passes on that it is being built, which takes a while."""
    with source:
        for line in source:
            kept.append(line.decode(errors="replace"))
            if kept[-1].startswith("wsc: building"):
                print(kept[-1], end="", file=sys.stderr, flush=True)


def gather(source: IO[bytes], kept: list[bytes]) -> None:
    """Keeps what a program writes to standard output."""
    with source:
        kept.append(source.read())


def exchange(line: Sequence[str], given: Iterable[bytes], answer: Stream = Stream.KEPT, errors: Stream = Stream.KEPT,
             timeout: float | None = None) -> tuple[int, bytes, str]:
    """Runs a program on these bytes: its status, what is kept of standard output, and of standard error. The bytes may
    come by pieces, and then are never kept whole. After so many seconds, where they are told, the call is ended. Raises
    CallFault then, and where the program can't be run."""
    made: list[bytes] = []
    kept: list[str] = []
    child = start(line, sink=answer, errors=errors)
    beside: list[threading.Thread] = []
    if child.stdout:
        beside.append(threading.Thread(target=gather, args=(child.stdout, made)))
    if child.stderr:
        beside.append(threading.Thread(target=relay, args=(child.stderr, kept)))
    assert child.stdin
    with ended_after(child, timeout) as late:
        for each in beside:
            each.start()
        try:
            with child.stdin as sink:
                for piece in given:
                    sink.write(piece)
        except BrokenPipeError:
            # it has answered before it read all
            pass
        finally:
            for each in beside:
                each.join()
        status = child.wait()
    if late.is_set():
        raise CallFault(f"{' '.join(line)} took more than {timeout} s")
    return status, b"".join(made), "".join(kept)


def call(program: str, words: list[str], text: str | Iterable[str], timeout: float | None = None) -> tuple[int, str, str]:
    """The status of a call and what it wrote to standard output and to standard error. A text may come by pieces, and
    then is never kept whole. After so many seconds, where they are told, the call is ended. Raises CallFault where there
    is no answer at all."""
    pieces = (piece.encode(errors="surrogateescape") for piece in ([text] if isinstance(text, str) else text))
    status, made, said = exchange([program, *words], pieces, timeout=timeout)
    if status == NONE_BUILT:
        raise CallFault(said.strip() or "there is no program", status)
    return status, made.decode(errors="replace"), said


def measured(line: Sequence[str], given: bytes, errors: Stream = Stream.PASSED_ON, limit: float | None = None) -> Measured:
    """Runs a program on these bytes, and measures it. It reads and writes files, so that nothing here takes part in its
    time. After so many seconds, where they are told, it is killed, which its status says."""
    with tempfile.TemporaryFile() as source, tempfile.TemporaryFile() as sink:
        source.write(given)
        source.seek(0)
        begun = time.perf_counter()
        child = start(line, source, sink, errors)
        with ended_after(child, limit):
            _, status, used = os.wait4(child.pid, 0)
            took = time.perf_counter() - begun
            child.returncode = os.waitstatus_to_exitcode(status)
        sink.seek(0)
        return Measured(child.returncode, sink.read(), took, used.ru_utime, used.ru_stime, used.ru_maxrss)


def needs_program(program: str) -> None:
    """Ends a plan whose lines couldn't be run."""
    if not shutil.which(program):
        raise Fault(f"{program} is no program that can be run; --wsc names one")


def ready(program: str) -> None:
    """Lets the wrapper at the top of the repository build the program where it must, which is said meanwhile."""
    if program == str(ROOT / "wsc"):
        call(program, ["gen", "1"], "")


def refusal(words: str, status: int, answer: str, errors: str) -> Fault:
    """What is told of a call that didn't end as it should: the program's words, or else its status or its signal."""
    said = answer.strip() or errors.strip() or (f"it was ended by signal {-status}" if status < 0
                                                else f"it ended with status {status} and said nothing")
    return Fault(f"wsc {words}: {said}")


def with_input(image: str, text: str) -> str:
    """An assembly with the input section of another text behind it, where that has one."""
    given = sections(text)[1]
    return image + ("\n".join(["%input", *given[0]]) if given else "")


def assembly_of(program: str, text: str) -> str:
    """The text where it is an assembly; what a job compiles to, with the job's input section."""
    if kind_of(text) != "job":
        return text
    status, made, errors = call(program, ["compile"], text)
    if status and "%job" in lines_of(text):
        raise Fault("these are several jobs, which lines %job separate: give one of them")
    if status:
        raise refusal("compile", status, made, errors)
    return with_input(made, text)


def traced(program: str, text: str, most: int = MOST_TRACED) -> str:
    """The text where it has a trace; else a job or an assembly with the trace of its run."""
    text = assembly_of(program, text)
    if kind_of(text) == "trace":
        return text
    status, made, errors = call(program, ["trace", "--budget", str(min(most, MOST_TRACED))], text)
    if status not in (0, 3, 8):
        raise refusal("trace", status, made, errors)
    # the text itself may have comments and names, which the program's own print hasn't
    own = with_input("\n".join(sections(text)[0][0]).rstrip("\n") + "\n", text).rstrip("\n")
    lacks = "" if sections(text)[1] else "\n%input"
    return f"{own}{lacks}\n%trace\n{made.partition(chr(10) + '%trace' + chr(10))[2]}"
