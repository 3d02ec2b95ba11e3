"""The modules of the pages (wavescalar/viewer/page) in Node, with the native program in place of a server or of a module for
WebAssembly. What they make is what a page makes of the same texts."""

from __future__ import annotations

import json
import pathlib
import re
import shutil
import subprocess
import tempfile
from typing import Any

from wavescalar.faults import Fault
from wavescalar.viewer.scripts import bundled, modules

HERE = pathlib.Path(__file__).resolve().parent
# Node 14 is the first that knows `await` in modules, and BigInt of WebAssembly.
NODE = 14
# What is called: tasks of a page's worker, the page in a file, and an order of an image.
CALLS = """
import {TASKS} from "./hand.js";
import {pageOf, twoOf} from "./file.js";
import {read} from "./image.js";
import {shown} from "./shown.js";
import {assemblyOf, traced} from "./calls.js";
import {orderOf, runOf} from "./orders.js";
export const CALLS = {
  ...TASKS,
  shown: (program, text, orders, most) => shown(program, text, orders, most),
  page: (_, given) => pageOf(given),
  two: (_, given) => twoOf(given),
  order(program, text, name, most) {
    const assembly = assemblyOf(program, text);
    const made = orderOf(name, read(name === "trace" ? traced(program, assembly, most) : assembly), most);
    return {...runOf(made), fired: made.grid && made.grid.fired};
  },
};
"""


def node() -> str | None:
    """Node, if one is here that knows what the modules need."""
    program = shutil.which("node")
    told = subprocess.run([program, "--version"], capture_output=True, text=True, check=False).stdout if program else ""
    found = re.match(r"v(\d+)\.", told)
    return program if found and int(found[1]) >= NODE else None


class Scripts:
    """The modules, to be used by `with`: each call has the name of one of CALLS."""

    def __init__(self, program: str):
        self.room = tempfile.TemporaryDirectory(prefix="wsc-scripts-")
        bundle = pathlib.Path(self.room.name, "bundle.js")
        bundle.write_text(bundled({**modules(), "calls_of_tests.js": CALLS.lstrip()}, "calls_of_tests.js", "CALLS"))
        line = [node() or "node", str(HERE / "scripts.mjs"), str(bundle), program]
        self.child = subprocess.Popen(line, stdin=subprocess.PIPE, stdout=subprocess.PIPE, text=True)

    def __enter__(self) -> Scripts:
        return self

    def __exit__(self, *_: object) -> None:
        assert self.child.stdin and self.child.stdout
        self.child.stdin.close()
        self.child.wait(60)
        self.child.stdout.close()
        self.room.cleanup()

    def __call__(self, name: str, *args: Any) -> Any:
        """What a call gives, as JSON has it; a Fault where it fails, with the name of the fault's class before its words."""
        assert self.child.stdin and self.child.stdout
        self.child.stdin.write(json.dumps([name, args]) + "\n")
        self.child.stdin.flush()
        told = json.loads(self.child.stdout.readline())
        if isinstance(told, str):
            raise Fault(told)
        return told[0]
