"""What can go wrong, as exceptions. All are `Fault`."""

from __future__ import annotations

from dataclasses import dataclass


class Fault(Exception):
    """What can't be built, read or called, in words."""


class BuildFault(Fault):
    """The builder was asked for something that no image can hold."""


class CallFault(Fault):
    """A program can't be run, or ended with a status that is no answer: 1, 4, 5 or 7 (docs/wsc.1)."""

    def __init__(self, message: str, status: int | None = None) -> None:
        super().__init__(message)
        self.status = status


@dataclass(eq=False)
class Refused(Fault):
    """A text is refused.

    answer: the line that says so, as the program prints it: `refused port 4 0`.
    rule: its word: `line`, `number`, `limit`, `version`, `name`, `shape`, `port`, `pending`, `link`, `ripple`,
        `input`, `illegal`, `long`, and of the linker `arm`, `trigger`, `full`, `many`.
    numbers: those that stand behind the word (docs/REFUSALS.md).
    line: counted from 1 in the text that was given; of an image, in `str(image)`. None where no line is meant.
    column: in bytes from 1, where the program tells it.
    text: that line, without what ends it.
    instruction, block: the number of the one that is meant, from 1, and its name in version 2.
    said: what the linter says of it, with a mend (docs/BACKEND.md).
    """

    answer: str
    rule: str
    numbers: tuple[int, ...] = ()
    line: int | None = None
    column: int | None = None
    text: str | None = None
    instruction: int | None = None
    name: str | None = None
    block: int | None = None
    block_name: str | None = None
    said: str | None = None

    def __post_init__(self) -> None:
        super().__init__(str(self))

    def __str__(self) -> str:
        parts = [self.answer]
        if self.line is not None:
            parts.append(f"line {self.line}")
        if self.instruction is not None:
            parts.append(f"instruction {self.instruction}" + (f" ({self.name})" if self.name else ""))
        if self.block is not None:
            parts.append(f"block {self.block}" + (f" ({self.block_name})" if self.block_name else ""))
        return ", ".join(parts) + (f": {self.text.strip()}" if self.text else "") + (f" [{self.said}]" if self.said else "")
