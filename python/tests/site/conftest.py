"""What the tests of the site need: the folder that ./web made, which WSC_SITE names."""

from __future__ import annotations

import os
import pathlib

import pytest


@pytest.fixture(scope="session")
def site() -> pathlib.Path:
    """The folder of the site."""
    named = os.environ.get("WSC_SITE")
    if not named:
        pytest.skip("WSC_SITE names no site: .ci/checks/web makes one and tries it")
    return pathlib.Path(named).resolve()
