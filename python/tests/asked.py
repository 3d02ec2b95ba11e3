"""Comparisons that have names, where one test makes many on the way."""

from __future__ import annotations

seen = 0
# What is said at the end, as a time that was measured.
told: list[str] = []


def want(what: str, found: object, wanted: object) -> None:
    """Fails, and names what it is, where something isn't as it is to be."""
    global seen
    seen += 1
    assert found == wanted, f"{what}: {str(found)[:2000]} and not {str(wanted)[:2000]}"


def say(line: str) -> None:
    """Has a line said once all tests are done."""
    told.append(line)
