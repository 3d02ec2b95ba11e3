"""What the front end can't compile, as one line: the C line, the reason, and the IR instruction."""

from __future__ import annotations

from dataclasses import dataclass

from wavescalar.faults import Fault


@dataclass(frozen=True)
class Place:
    """Where an instruction comes from: a file and a line of C, from 1; 0 where debug information names none."""

    file: str
    line: int

    def __str__(self) -> str:
        return f"{self.file}:{self.line}" if self.line else self.file


class Refusal(Fault):
    """A program outside of what the front end takes. `str` is `FILE:LINE: refused: REASON: INSTRUCTION`."""

    def __init__(self, reason: str, place: Place | None = None, text: str = "") -> None:
        self.reason, self.place, self.text = reason, place, " ".join(text.split())
        parts = [str(place)] if place else []
        parts += ["refused", reason]
        parts += [self.text] if self.text else []
        super().__init__(": ".join(parts))


class ToolFault(Fault):
    """clang, opt or LLVM's library isn't there (status 70), or refused the program (2), as it said itself."""

    def __init__(self, message: str, status: int = 70) -> None:
        super().__init__(message)
        self.status = status
