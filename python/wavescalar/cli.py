"""What the commands have in common: how arguments are read, which exit status they have.

The exit status is 0 if all is done, 1 if the arguments are wrong, 2 if a text or a file can't be read or wsc
refuses it, 3 if `collect` of a sweep or plan reports something. Faults go to standard error, after the program's
name.
"""

from __future__ import annotations

import argparse
import os
import pathlib
import signal
import sys
from typing import Any, Callable, NoReturn

from wavescalar.faults import Fault
from wavescalar.numbered import answered
from wavescalar.programs import usual


def again(module: str) -> list[str]:
    """The words that call this command again from here, which is that of a module of the package."""
    called = sys.argv[0]
    if called.endswith(".py"):  # python3 -m, where the package is installed
        return ["python3", "-m", module]
    return ["python3", os.path.relpath(called)]


class Version(argparse.Action):
    """Says the version of the tools, and ends."""

    def __call__(self, parser: argparse.ArgumentParser, *_: Any) -> NoReturn:
        from wavescalar.versions import of_tools  # asks git, which other lines needn't wait for
        print(f"{parser.prog} {of_tools()}")
        parser.exit(0)


class Line(argparse.ArgumentParser):
    """A command line with --help, and status 1 for wrong arguments."""

    def __init__(self, told: str | None = None, **more: Any):
        plain = argparse.RawDescriptionHelpFormatter
        super().__init__(description=told, formatter_class=plain, **more)
        self.add_argument("--version", action=Version, nargs=0, help="show the version and exit")

    def error(self, message: str) -> NoReturn:
        """Says what is wrong with the words, and ends."""
        self.print_usage(sys.stderr)
        self.exit(1, f"{self.prog}: {message}\n")


def add_program(ask: argparse.ArgumentParser) -> None:
    """The option that names the program."""
    told = "the program wsc; by default $WSC, else wsc at the top of the repository, else wsc on the path"
    ask.add_argument("--wsc", metavar="PROGRAM", default=usual(), help=told)


def text_of(file: str | pathlib.Path | None) -> str:
    """The text of a file, or of standard input, which `-` stands for too."""
    read = pathlib.Path(file).read_bytes() if file and file != "-" else sys.stdin.buffer.read()
    return read.decode(errors="surrogateescape")


def given(file: str | pathlib.Path | None) -> str:
    """Such a text, which is to be a text of the program's own and no answer of it."""
    text = text_of(file)
    if told := answered(text):
        raise Fault(f"the text is itself an answer: {told}")
    return text


# What comes of an image that isn't sound, where one is drawn or run here.
UNSOUND = (IndexError, KeyError, RecursionError, StopIteration, ValueError)


def whole(main: Callable[[], int], images: bool = False) -> int:
    """Runs a program, perhaps one that reads images: its status, and its faults in words."""
    name = pathlib.Path(sys.argv[0]).name
    try:
        status = main()
        sys.stdout.flush()
        return status
    except BrokenPipeError:
        # who reads has gone; what is left in the buffer goes nowhere
        os.dup2(os.open(os.devnull, os.O_WRONLY), sys.stdout.fileno())
        return 128 + signal.SIGPIPE
    except Fault as fault:
        print(f"{name}: {fault}", file=sys.stderr)
    except OSError as fault:
        print(f"{name}: {fault.filename or ''}: {fault.strerror}", file=sys.stderr)
    except UNSOUND:
        if not images:
            raise
        print(f"{name}: this isn't a sound image; wsc check says why", file=sys.stderr)
    except KeyboardInterrupt:
        return 128 + signal.SIGINT
    return 2
