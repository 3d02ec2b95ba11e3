"""For compiler writers: WaveScalar images as data, a builder for them, and the programs `wsc` and `wsl` as calls."""

from __future__ import annotations

from importlib import import_module
from typing import TYPE_CHECKING

if TYPE_CHECKING:
    from wavescalar.builder import ArrayHandle, BlockBuilder, Builder, Node, Operand, Result, Steer, Value, WaveBuilder
    from wavescalar.faults import BuildFault, CallFault, Fault, Refused
    from wavescalar.image import DRAFT, Array, Block, Exit, Image, Instruction, Note, Port, Wave, unnamed
    from wavescalar.reader import Finding
    from wavescalar import text as _text
    from wavescalar.text import findings, input_of, read, sections
    from wavescalar.tools import (
        Event, Issue, Match, Replay, Run, Trace,
        check, decouple, grid, link, listing, multi, read_trace, replay, run, trace,
    )

    print = _text.print

__version__ = "0.1.0"
__all__ = [
    "Array", "ArrayHandle", "Block", "BlockBuilder", "BuildFault", "Builder", "CallFault", "DRAFT", "Event", "Exit",
    "Fault", "Finding", "Image", "Instruction", "Issue", "Match", "Node", "Note", "Operand", "Port", "Refused",
    "Replay", "Result", "Run", "Steer", "Trace", "Value", "Wave", "WaveBuilder", "check", "decouple", "findings",
    "grid", "input_of", "link", "listing", "multi", "read", "read_trace", "replay", "run", "sections",
    "trace", "unnamed",
]
# What of these each module has, `tools` all the rest. A module is read when it is asked for.
PARTS: dict[str, list[str]] = {
    "builder": ["ArrayHandle", "BlockBuilder", "Builder", "Node", "Operand", "Result", "Steer", "Value",
                "WaveBuilder"],
    "faults": ["BuildFault", "CallFault", "Fault", "Refused"],
    "image": ["Array", "Block", "DRAFT", "Exit", "Image", "Instruction", "Note", "Port", "Wave", "unnamed"],
    "isa": [],
    "reader": ["Finding"],
    "text": ["findings", "input_of", "print", "read", "sections"],
    "tools": [],
}

if not TYPE_CHECKING:  # whose names are those above
    def __getattr__(name: str) -> object:
        """A module of the package, or what one of them has."""
        if name in PARTS:
            return import_module(f".{name}", __name__)
        if name not in __all__ and name != "print":  # which a star import leaves to Python
            raise AttributeError(f"module {__name__!r} has no attribute {name!r}")
        part = next((part for part, names in PARTS.items() if name in names), "tools")
        globals()[name] = found = getattr(import_module(f".{part}", __name__), name)
        return found
