"""The modules of the package stand on each other one way, and so do its subpackages; none changes where Python looks; and
one module starts other programs."""

from __future__ import annotations

import ast
import pathlib

import pytest

from tests.places import LIBRARY

PACKAGE = "wavescalar"
# What starts processes: modules whose import is enough, and names of others.
STARTERS = {"subprocess", "multiprocessing", "pty", "popen2", "concurrent.futures.process"}
OF_OTHERS = {"system", "popen", "fork", "forkpty", "posix_spawn", "posix_spawnp", "startfile", "ProcessPoolExecutor",
             "create_subprocess_exec", "create_subprocess_shell", "subprocess_exec", "subprocess_shell",
             *(f"{kind}{ending}" for kind in ("exec", "spawn") for ending in ("l", "le", "lp", "lpe", "v", "ve", "vp", "vpe"))}
# The modules that may, and why.
MAY_START = {
    "wavescalar.programs": "all calls of the programs go through it",
    "wavescalar.c.clang": "calls clang, opt and llvm-link, and the native program, with a limit of processor time of its own",
}


def modules() -> dict[str, pathlib.Path]:
    """The files of the package, by the names of their modules."""
    files = sorted((LIBRARY / PACKAGE).rglob("*.py"))
    return {".".join(file.relative_to(LIBRARY).with_suffix("").parts).removesuffix(".__init__"): file for file in files}


def imported(file: pathlib.Path, known: dict[str, pathlib.Path]) -> set[str]:
    """The modules of the package that a file imports, also inside a function."""
    found: set[str] = set()
    for node in ast.walk(ast.parse(file.read_text())):
        if isinstance(node, ast.ImportFrom) and node.module:
            inside = {f"{node.module}.{it.name}" for it in node.names}
            found |= inside & known.keys() or {node.module}
        elif isinstance(node, ast.Import):
            found |= {it.name for it in node.names}
    return found & known.keys() - {PACKAGE}


def circle(graph: dict[str, set[str]]) -> list[str]:
    """Names of which each stands on the next, the last being the first again; nothing where there is no such circle."""
    done: set[str] = set()

    def walk(name: str, way: list[str]) -> list[str]:
        if name in way:
            return [*way[way.index(name):], name]
        if name in done:
            return []
        found: list[str] = next((it for other in sorted(graph[name]) if (it := walk(other, [*way, name]))), [])
        done.add(name)
        return found

    return next((found for name in sorted(graph) if (found := walk(name, []))), [])


def folder(name: str) -> str:
    """The subpackage of a module; nothing for those right in the package."""
    return name.rpartition(".")[0] if name.count(".") > 1 else ""


def test_circle() -> None:
    assert circle({"a": {"b"}, "b": {"c"}, "c": {"b"}}) == ["b", "c", "b"]
    assert circle({"a": {"b", "c"}, "b": {"c"}, "c": set()}) == []


def test_layers() -> None:
    known = modules()
    graph = {name: imported(file, known) for name, file in known.items() if name != PACKAGE}
    assert "wavescalar.viewer.gather" in graph["wavescalar.timing.plan"]
    assert circle(graph) == []
    folders: dict[str, set[str]] = {folder(name): set() for name in graph if folder(name)}
    for name in filter(folder, graph):
        folders[folder(name)] |= {folder(other) for other in graph[name]} - {folder(name), ""}
    assert folders["wavescalar.timing"] >= {"wavescalar.viewer"}
    assert circle(folders) == []


def test_path() -> None:
    """Nobody tells Python of other folders than that of its program."""
    looked = [file for file in LIBRARY.rglob("*.py") if file != pathlib.Path(__file__)]
    assert [file.name for file in looked if any(
        isinstance(node, ast.Attribute) and node.attr == "path" and isinstance(node.value, ast.Name) and node.value.id == "sys"
        for node in ast.walk(ast.parse(file.read_text())))] == []


def starters(text: str) -> list[str]:
    """What a text of Python names that starts processes."""
    found: list[str] = []
    for node in ast.walk(ast.parse(text)):
        if isinstance(node, ast.Import):
            found += [it.name for it in node.names if it.name in STARTERS]
        elif isinstance(node, ast.ImportFrom):
            found += [node.module] if node.module in STARTERS else [it.name for it in node.names if it.name in OF_OTHERS]
        elif isinstance(node, ast.Attribute) and node.attr in OF_OTHERS:
            is_of_module = isinstance(node.value, ast.Name) and node.value.id in ("os", "asyncio", "futures")
            found += [node.attr] if is_of_module else []
        elif isinstance(node, ast.Call) and isinstance(node.func, ast.Name) and node.func.id in ("__import__", "import_module"):
            found += [str(it.value) for it in node.args if isinstance(it, ast.Constant) and it.value in STARTERS]
    return found


@pytest.mark.parametrize("text, wanted", (
    ("import subprocess", ["subprocess"]), ("from subprocess import run as go", ["subprocess"]),
    ("def f():\n    import multiprocessing", ["multiprocessing"]), ("import os\nos.execvp('a', [])", ["execvp"]),
    ("from os import system", ["system"]), ("__import__('pty')", ["pty"]),
    ("from concurrent.futures import ThreadPoolExecutor, ProcessPoolExecutor", ["ProcessPoolExecutor"]),
    ("import os\nos.kill(1, 2); wait.fork()", []), ("from wavescalar.programs import start", []),
))
def test_starters(text: str, wanted: list[str]) -> None:
    assert starters(text) == wanted


def test_processes() -> None:
    """No other module of the package starts a process, so that a call of the program is one function's matter."""
    found = {name for name, file in modules().items() if starters(file.read_text())}
    assert found == set(MAY_START)
