"""What a language tells of a text: names and where they stand, symbols, hover, completion."""

from __future__ import annotations

from bisect import bisect_right
from collections.abc import Hashable, Iterable
from dataclasses import dataclass
from typing import NamedTuple, Optional, Protocol

from wavescalar.lsp.documents import Span

# The protocol's numbers of kinds of symbols, and of kinds of completions.
MODULE, NAMESPACE, FUNCTION, VARIABLE, ARRAY, OPERATOR, KEY = 2, 3, 12, 13, 18, 25, 20
KEYWORD_ITEM, FUNCTION_ITEM, VARIABLE_ITEM, VALUE_ITEM, OPERATOR_ITEM, REFERENCE_ITEM = 14, 3, 6, 12, 24, 18


MOST_DIGITS = 40  # of a number that is told


class Occurrence(NamedTuple):
    """A name or number in the text that stands for something. key: what it stands for; defines: whether here."""

    span: Span
    key: Hashable
    defines: bool = False


@dataclass(frozen=True)
class Symbol:
    """A part of the text with a name. span: the whole part; at: its name; kind: the protocol's number."""

    name: str
    kind: int
    span: Span
    at: Span
    detail: str = ""
    children: tuple[Symbol, ...] = ()


@dataclass(frozen=True)
class Item:
    """What may stand at a place: its text, the protocol's number of its kind, and what it is."""

    label: str
    kind: int
    detail: str = ""


@dataclass(frozen=True)
class Hover:
    """What is told of a part of the text, as Markdown."""

    span: Span
    told: str


class Index:
    """Occurrences by place and by what they stand for."""

    def __init__(self, occurrences: Iterable[Occurrence]) -> None:
        self._all = sorted(occurrences, key=lambda it: it.span)
        self._begins = [it.span[0] for it in self._all]
        self._by_key: dict[Hashable, list[Occurrence]] = {}
        for it in self._all:
            self._by_key.setdefault(it.key, []).append(it)

    def at(self, offset: int) -> Occurrence | None:
        """The occurrence at a place, its end included, the one that begins there before the one that ends there."""
        place = bisect_right(self._begins, offset) - 1
        return self._all[place] if place >= 0 and offset <= self._all[place].span[1] else None

    def shape(self) -> list[tuple[int, bool]]:
        """Which occurrences stand for the same thing, whatever its name is: for each the first of its kind."""
        first: dict[Hashable, int] = {}
        return [(first.setdefault(it.key, at), it.defines) for at, it in enumerate(self._all)]

    def definitions(self, offset: int) -> list[Occurrence]:
        """Where the thing at a place is defined."""
        return self.references(offset, defining=True)

    def references(self, offset: int, declared: bool = True, defining: bool = False) -> list[Occurrence]:
        """Where the thing at a place stands; with `declared` also where it is defined, with `defining` there alone."""
        here = self.at(offset)
        if here is None:
            return []
        return [it for it in self._by_key[here.key] if (it.defines if defining else declared or not it.defines)]


class Analysis(Protocol):
    """A text of one language, as far as it can be read; made anew for each version of it."""

    index: Index

    def symbols(self) -> list[Symbol]:
        """The parts of the text."""

    def hover(self, offset: int) -> Optional[Hover]:
        """What is told of a place."""

    def completions(self, offset: int) -> list[Item]:
        """What may stand at a place."""


def number_of(word: str) -> int | None:
    """The number that digits stand for; nothing where they are 2^64 or more."""
    value = int(word) if len(word.lstrip("0")) <= len(str(1 << 64)) else 1 << 64
    return value if value < 1 << 64 else None


def word_value(word: str) -> str:
    """A word of the machine, in digits, in the forms that help to read it."""
    number = number_of(word)
    if number is None:
        return f"`{word[:MOST_DIGITS]}{'..' * (len(word) > MOST_DIGITS)}` is 2^64 or more: no word holds it"
    told = [f"`{number}`", f"hexadecimal `{number:#x}`"]
    if number >= 1 << 63:
        told.append(f"`{number - (1 << 64)}` modulo 2^64")
    if number and number & (number - 1) == 0:
        told.append(f"2^{number.bit_length() - 1}")
    return ", ".join(told)
