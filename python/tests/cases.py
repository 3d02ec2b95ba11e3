"""Parameters of tests that have names."""

from __future__ import annotations

from collections.abc import Iterable
from typing import Any

import pytest


def each(names: str, cases: Iterable[tuple[str, Any]]) -> pytest.MarkDecorator:
    """A case for each value, or tuple of values, with its name."""
    listed = list(cases)
    return pytest.mark.parametrize(names, [case for _, case in listed], ids=[name for name, _ in listed])
