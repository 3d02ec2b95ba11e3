"""The language server in Neovim, in Emacs, and in the extension of VS Code with a stand-in for the editor: each by the script
that editors/ has for it. What isn't installed is left out.
"""

from __future__ import annotations

import os
import pathlib
import re
import shutil
import subprocess

import pytest

from tests.places import LIBRARY, ROOT, WSC, WSL

EDITORS = ROOT / "editors"
ENVIRONMENT = {**os.environ, "WSC": WSC, "WSL": WSL, "PATH": f"{LIBRARY}:{os.environ['PATH']}", "PYTHONDONTWRITEBYTECODE": "1"}
SECONDS = 600  # a loaded machine takes long
RECORDED = "NVIM v0.7.2"  # the editor of editors/session.txt; another one may draw otherwise


def tried(*line: str, **more: str) -> str:
    """What a trial says, with more in its environment; it has to end with status 0."""
    done = subprocess.run(line, capture_output=True, text=True, check=False, cwd=ROOT, env=ENVIRONMENT | more, timeout=SECONDS)
    assert done.returncode == 0, done.stdout + done.stderr
    return done.stdout + done.stderr


def test_neovim(tmp_path: pathlib.Path) -> None:
    if not shutil.which("nvim"):
        pytest.skip("no Neovim (Debian: neovim)")
    session = tmp_path / "session.txt"
    told = tried("nvim", "--headless", "-u", "NONE", "--cmd", "set rtp+=editors/vim", "-c", "luafile editors/nvim/try.lua",
                 XDG_STATE_HOME=str(tmp_path), WSC_SESSION=str(session))
    assert "diagnostic 8:9 unknown" in told
    for line in ("gd went to line 2", "renamed: 3 lines have it", "code action: write `total`", "mended: no diagnostics",
                 "formatted:   print total;"):
        assert line in told, told
    if RECORDED in subprocess.run(["nvim", "--version"], capture_output=True, text=True, check=True).stdout:
        assert session.read_text() == (EDITORS / "session.txt").read_text()


def test_emacs() -> None:
    parts = sorted(pathlib.Path("/usr/share/emacs/site-lisp/elpa").glob("*/eglot*.el"))
    if not shutil.which("emacs"):
        pytest.skip("no Emacs (Debian: emacs-nox, elpa-eglot)")
    asked = subprocess.run(["emacs", "--batch", "--eval", "(kill-emacs (if (locate-library \"eglot\") 0 3))"], check=False,
                           capture_output=True)
    if asked.returncode and not parts:
        pytest.skip("no eglot (Debian: elpa-eglot)")
    told = tried("emacs", "-q", "--batch", "-l", "editors/emacs/try.el")
    for line in ("its line: 8", "definition of add at line: 2", "renamed: 3", "mended: no diagnostics", "formatted: t",
                 "shut down"):
        assert line in told, told


def test_vs_code() -> None:
    if not shutil.which("node"):
        pytest.skip("no Node (Debian: nodejs)")
    told = tried("node", "editors/vscode/try.js", str(LIBRARY / "wsc-lsp"))
    assert re.search(r"^12 looked at, 0 wrong$", told, re.MULTILINE), told


def test_vs_code_without_a_server() -> None:
    """The editor is told, and the extension goes on."""
    if not shutil.which("node"):
        pytest.skip("no Node (Debian: nodejs)")
    script = ("const Module = require('module'), said = []; const load = Module._load; const none = () => ({dispose() {}});"
              "const all = new Proxy({}, {get: (_, name) => name === 'createDiagnosticCollection' ?"
              " () => ({clear() {}}) : none});"
              "Module._load = (name, ...more) => name !== 'vscode' ? load(name, ...more) : {workspace: new Proxy({},"
              " {get: (_, name) =>"
              " name === 'getConfiguration' ? () => ({get: it => it === 'server' ? '/nowhere/wsc-lsp' : []}) : none}),"
              " languages: all, commands: all, window: {showWarningMessage: it => said.push(it)}};"
              "const it = require('./editors/vscode/extension.js');"
              "it.activate({subscriptions: []}).then(() => it.deactivate()).then(() => console.log(said.join()));")
    assert "no language server: /nowhere/wsc-lsp can't be run" in tried("node", "-e", script)
