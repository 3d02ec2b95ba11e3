"""shim.c alone as a module, whose memory and arithmetic of 128 bits shim.mjs tries in Node."""

from __future__ import annotations

import pathlib
import shutil
import subprocess

import pytest

from repo.site.lower import lowered
from tests import asked
from tests.scripts import node
from wavescalar.programs import ROOT

HERE = pathlib.Path(__file__).resolve().parent
SHIM = ROOT / "python" / "repo" / "site" / "shim.c"
# What shim.mjs calls beside it. The program itself gets pairs and 128 bits in ways of its own.
CALLED = """
void *realloc(void *at, size_t size) { return reallocate(at, size, UNIT); }
void product(u64 *to, u64 a, u64 b, u64 c, u64 d) {
    union halves x = {.of = {a, b}}, y = {.of = {c, d}}, r = {__multi3(x.all, y.all)};
    to[0] = r.of.low, to[1] = r.of.high;
}
void shifted(u64 *to, u64 a, u64 b, int by, int is_left) {
    union halves x = {.of = {a, b}}, r = {is_left ? __ashlti3(x.all, by) : __lshrti3(x.all, by)};
    to[0] = r.of.low, to[1] = r.of.high;
}
"""
NAMES = ("malloc", "free", "realloc", "product", "shifted", "rattle_alloc", "rattle_realloc", "rattle_dealloc")


def built(room: pathlib.Path) -> pathlib.Path:
    """The module, with 32-bit memory."""
    doc = subprocess.run(["rt", "doc"], capture_output=True, text=True, check=True).stdout.split()[0]
    tools = pathlib.Path(doc).parent / "toolchain" / "bin"
    (room / "shim.c").write_text(SHIM.read_text() + CALLED)
    (room / "wasm-ld").symlink_to(tools / "ld.lld")
    subprocess.run([tools / "clang", "--target=wasm64-unknown-unknown", "-O2", "-ffreestanding", "-fno-builtin", "-c", room / "shim.c",
                    "-o", room / "shim.o"], check=True)
    subprocess.run([room / "wasm-ld", "-mwasm64", "--no-entry", "--import-memory", "--initial-memory=16777216", "-z", "stack-size=8388608",
                    "--stack-first", *(f"--export={it}" for it in NAMES), room / "shim.o", "-o", room / "wide"], check=True)
    made = room / "shim.wasm"
    made.write_bytes(lowered((room / "wide").read_bytes()))
    return made


def test_shim(tmp_path: pathlib.Path) -> None:
    """All that shim.mjs tries."""
    program = node()
    if not program or not shutil.which("rt"):
        pytest.skip("no Node (Debian: nodejs), or no kit")
    ran = subprocess.run([program, str(HERE / "shim.mjs"), str(built(tmp_path))], capture_output=True, text=True, check=False)
    asked.want("shim.c", (ran.returncode, ran.stdout.splitlines()[:-1], ran.stderr), (0, [], ""))
    asked.say(f"shim.c: {ran.stdout.splitlines()[-1]}")
