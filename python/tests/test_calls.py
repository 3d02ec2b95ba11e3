"""What starts programs: answers, errors, limits, and what a call takes, over small programs of Python and bash."""

from __future__ import annotations

import os
import pathlib
import sys
import time

import pytest

from wavescalar.faults import CallFault
from wavescalar.programs import NONE_BUILT, Stream, call, exchange, heard, measured, start

ECHO = "import sys; data = sys.stdin.buffer.read(); sys.stdout.buffer.write(data); print('said', file=sys.stderr); sys.exit(3)"


def python(text: str) -> list[str]:
    return [sys.executable, "-c", text]


def test_exchange() -> None:
    assert exchange(python(ECHO), [b"a\xff", b"\n"]) == (3, b"a\xff\n", "said\n")
    assert exchange(python(ECHO), [b"a"], errors=Stream.DROPPED) == (3, b"a", "")
    assert exchange(python(ECHO), [], answer=Stream.DROPPED) == (3, b"", "said\n")


def test_passed_on(capfd: pytest.CaptureFixture[str]) -> None:
    assert exchange(python(ECHO), [b"a\n"], answer=Stream.PASSED_ON, errors=Stream.PASSED_ON) == (3, b"", "")
    assert capfd.readouterr() == ("a\n", "said\n")


def test_large() -> None:
    """A program that answers while it reads, more than a pipe holds, and one that doesn't read at all."""
    piece = b"x" * (1 << 16)
    status, made, _ = exchange(["cat"], (piece for _ in range(64)))
    assert (status, len(made)) == (0, 64 << 16)
    assert exchange(["true"], (piece for _ in range(64)))[0] == 0


def test_call() -> None:
    status, answer, said = call(sys.executable, ["-c", ECHO], "é\udcff")
    assert (status, answer, said) == (3, "é\ufffd", "said\n")
    with pytest.raises(CallFault, match="can't be run: No such file"):
        call("/no/such/program", [], "")
    with pytest.raises(CallFault, match="why") as fault:
        call("bash", ["-c", f"echo why >&2; exit {NONE_BUILT}"], "")
    assert fault.value.status == NONE_BUILT


def test_limit() -> None:
    begun = time.monotonic()
    with pytest.raises(CallFault, match="sleep 60 took more than 0.2 s"):
        call("sleep", ["60"], "", timeout=0.2)
    done = measured(["sleep", "60"], b"", limit=0.2)
    assert (done.status, done.answer) == (-9, b"")
    assert time.monotonic() - begun < 30


def test_building(capfd: pytest.CaptureFixture[str]) -> None:
    """That the program is being built is said at once; all else that it says is kept."""
    line = ["bash", "-c", "echo 'wsc: building' >&2; echo more >&2"]
    assert exchange(line, [])[2] == "wsc: building\nmore\n"
    assert capfd.readouterr().err == "wsc: building\n"


def test_measured() -> None:
    work = "import sys; x = bytearray(50_000_000); sum(range(3_000_000)); print(sys.stdin.read()); sys.exit(2)"
    done = measured(python(work), b"given")
    assert (done.status, done.answer) == (2, b"given\n")
    assert done.kilobytes > 40_000
    assert 0 < done.user <= done.wall + 0.1 and done.system >= 0


def test_heard(tmp_path: pathlib.Path) -> None:
    with open(tmp_path / "words", "wb+") as source:
        source.write(b"word\n")
        source.seek(0)
        child = start(["bash", "-c", "read word; sleep 0.3; echo $word $KEY; pwd; echo x >&2"], source=source,
                      folder=str(tmp_path), environment={**os.environ, "KEY": "key"}, is_group=True)
    assert os.getpgid(child.pid) == child.pid
    told = heard(child, 0.01)
    assert told is None
    while told is None:
        told = heard(child, 1)
    assert told == (f"word key\n{tmp_path.resolve()}\n".encode(), b"x\n")
    assert child.returncode == 0
