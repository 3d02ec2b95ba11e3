"""What a few lines of a large assembly tell at once, while all of it is still being read by another process."""

from __future__ import annotations

from typing import Any

from wavescalar.lsp import colours as painted
from wavescalar.lsp.assemblies import AssemblyText
from wavescalar.lsp.documents import Document, Range
from wavescalar.lsp.large import LargeText

MOST_LINES = 2000  # that are coloured at once


def _shifted(range_: Range, lines: int) -> Range:
    """A range of a part, in the whole text."""
    return {edge: {**place, "line": place["line"] + lines} for edge, place in range_.items()}


def _place(text: LargeText, params: Any) -> tuple[Document, int, int]:
    """The line of a request, as a text of its own; its number; and the place in it."""
    place = params["position"]
    part, number = text.part(place["line"], place["line"])
    return part, number, part.offset({**place, "line": place["line"] - number})


def hover(text: LargeText, params: Any) -> Any:
    """The mnemonic, the note or the number at a place; nothing of names, which stand elsewhere."""
    if text.language == "job":
        return None
    part, number, offset = _place(text, params)
    found = AssemblyText(part).hover(offset, is_part=True)
    if not found:
        return None
    return {"contents": {"kind": "markdown", "value": found.told}, "range": _shifted(part.range(found.span), number)}


def completion(text: LargeText, params: Any) -> Any:
    """Mnemonics and heads of lines, and that names are still lacking."""
    items = []
    if text.language == "assembly":
        part, _, offset = _place(text, params)
        items = [{"label": it.label, "kind": it.kind, "detail": it.detail} for it in AssemblyText(part).completions(offset)]
    return {"isIncomplete": True, "items": items}


def colours(text: LargeText, params: Any) -> Any:
    """The colours of some lines of an assembly, which no other line changes."""
    first, last = (params["range"][edge]["line"] for edge in ("start", "end"))
    if text.language == "job" or last - first > MOST_LINES:
        return None
    part, number = text.part(first, last)
    data = painted.encode(part, painted.parts_of(AssemblyText(part), (0, len(part.text))))
    return {"data": [data[0] + number, *data[1:]] if data else []}


def actions(_: LargeText, params: Any) -> Any:
    """That there are none, where there is no diagnostic to mend; else nothing is known yet."""
    context = params["context"]
    return None if context.get("diagnostics") or context.get("only") else []
