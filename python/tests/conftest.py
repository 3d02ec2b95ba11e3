"""What the tests need: the programs, options for more cases, and how much was looked at."""

from __future__ import annotations

import pathlib
from collections.abc import Iterator

import pytest
from _pytest.terminal import TerminalReporter

from tests import asked
from tests.browser import found
from tests.places import WSC, WSL, WSS
from tests.scripts import Scripts, node


def pytest_addoption(parser: pytest.Parser) -> None:
    """Options for longer trials by hand."""
    more = parser.getgroup("wsc")
    more.addoption("--first", type=int, default=0, help="the number of the first draft (0)")
    more.addoption("--drafts", type=int, default=60, help="how many drafts (60)")
    more.addoption("--machines", type=int, default=3, help="machines at random for each text that isn't long (3)")
    more.addoption("--generated", type=int, default=2, help="so many jobs of wsc gen more (2)")
    more.addoption("--all-c", action="store_true", help="all tests of the front end from C, not only a choice")
    more.addoption("--seed", type=int, default=1, help="begins the numbers of these machines (1)")
    more.addoption("--site-every", type=int, default=1, help="of the site and of the modules of pages one line, text or event of so many (1)")


def pytest_configure(config: pytest.Config) -> None:
    """Without the program there is nothing to test."""
    config.addinivalue_line("markers", "long: a test that is left for --all-c")
    if not pathlib.Path(WSC).is_file():
        raise pytest.UsageError("there is no program crates/wsc/out/wsc, which the gate builds; the environment's WSC names another,"
                                " as crates/wsc/out/unproved/wsc, which ./wsc builds without proof")


def pytest_generate_tests(metafunc: pytest.Metafunc) -> None:
    """A case for each draft."""
    if "draft_number" in metafunc.fixturenames:
        first, count = (metafunc.config.getoption(name) for name in ("--first", "--drafts"))
        metafunc.parametrize("draft_number", range(first, first + count))


def pytest_terminal_summary(terminalreporter: TerminalReporter) -> None:
    """How much was looked at in these tests, and what was measured."""
    for told in asked.told:
        terminalreporter.write_line(told)
    if asked.seen:
        terminalreporter.write_line(f"{asked.seen} values compared by name")


@pytest.fixture(scope="session")
def wsc() -> str:
    """The program wsc."""
    return WSC


@pytest.fixture(scope="session")
def wsl() -> str:
    """The linker; what needs it is left out, and counted so, where it isn't there."""
    if not WSL:
        pytest.skip("no linker: WSL names none")
    return WSL


@pytest.fixture(scope="session")
def wss() -> str:
    """The program wss; what needs it is left out, and counted so, where it isn't there."""
    if not WSS:
        pytest.skip("no program wss: WSS names none")
    return WSS


@pytest.fixture(scope="session")
def every(request: pytest.FixtureRequest) -> int:
    """One line, text or event of so many is looked at."""
    return int(request.config.getoption("--site-every"))


@pytest.fixture(scope="session")
def scripts() -> Iterator[Scripts]:
    """The modules of the pages, with the program."""
    if not node():
        pytest.skip("no Node (Debian: nodejs)")
    with Scripts(WSC) as made:
        yield made


@pytest.fixture(scope="session")
def chromium() -> None:
    """Leaves out what needs Chromium where it isn't there."""
    if not found():
        pytest.skip("no Chromium (Debian: chromium)")
