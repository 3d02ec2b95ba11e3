"""The modules of the pages, which compute in a browser what is drawn: page/*.js, and `why.js`, which is made of the words of
diagnose/refusals.py.

A browser takes no modules from the place of a file, and a server is asked for each. So `bundled` makes one script of a module
and those that it imports. Of the language it knows what stands in these modules: imports and exports by name, each at the
begin of a line, and one name in an export.
"""

from __future__ import annotations

import functools
import json
import pathlib
import re
from collections.abc import Mapping

from wavescalar.diagnose import refusals
from wavescalar.faults import Fault
from wavescalar.isa import RESERVED

PAGE = pathlib.Path(__file__).resolve().parent / "page"
TEXTS_OF_REFUSALS = ("JOB", "LINE", "FORMS", "HINTS", "SOUND", "JOBS", "WITH_INPUT", "ENDS", "FOREIGN")
IMPORT = re.compile(r'^import \{([^}]*)\} from "\./([\w-]+)\.js";\n', re.MULTILINE)
EXPORT = re.compile(r"^export (?=(?:const|class|function) (\w+))", re.MULTILINE)
# A comment that has whole lines: the types are in such.
COMMENT = re.compile(r"^[ \t]*(?:/\*\*(?:(?!\*/)[\s\S])*\*/|// .*)\n", re.MULTILINE)


def why() -> str:
    """What each word of a refusal says, and its hints, as a module."""
    told = "".join(f"export const {name} = {json.dumps(getattr(refusals, name))};\n" for name in TEXTS_OF_REFUSALS)
    return f"{told}export const RESERVED = {json.dumps(sorted(RESERVED))};\n"


@functools.cache
def modules() -> Mapping[str, str]:
    """All modules by their names."""
    return {file.name: file.read_text() for file in sorted(PAGE.glob("*.js"))} | {"why.js": why()}


def bundled(texts: Mapping[str, str], entry: str, *names: str) -> str:
    """The script of a module and of all that it imports, without their comments; it gives these names of that module.

    Raises Fault where a module imports what isn't there, or is written in a way that isn't known here.
    """
    made: dict[str, set[str]] = {}
    script = "".join(_parts(texts, entry, made))
    if lacking := set(names) - made[entry]:
        raise Fault(f"{entry} has no {', '.join(sorted(lacking))}")
    given = f"const {{{', '.join(names)}}} = " if names else ""
    last = f"return ${_stem(entry)};\n" if names else ""
    return f'{given}(() => {{\n"use strict";\n{script}{last}}})();\n'


def _stem(name: str) -> str:
    return name.removesuffix(".js").replace("-", "_")


def _parts(texts: Mapping[str, str], name: str, made: dict[str, set[str]]) -> list[str]:
    """Functions that each give what a module exports, those of what it imports before its own."""
    if name in made:
        return []
    if name not in texts:
        raise Fault(f"there is no module {name}")
    parts, text = list[str](), COMMENT.sub("", texts[name])
    made[name] = set(EXPORT.findall(text))
    for wanted, other in IMPORT.findall(text):
        parts += _parts(texts, f"{other}.js", made)
        if lacking := {it.strip() for it in wanted.split(",") if it.strip()} - made[f"{other}.js"]:
            raise Fault(f"{name} imports {', '.join(sorted(lacking))}, which {other}.js doesn't export")
    own = EXPORT.sub("", IMPORT.sub(lambda it: f"const {{{it[1].strip()}}} = ${_stem(it[2])};\n", text))
    if known := re.search(r"^\s*(?:im|ex)port\b.*", own, re.MULTILINE):
        raise Fault(f"{name} has `{known[0].strip()}`, which isn't known here")
    given = ", ".join(sorted(made[name]))
    return [*parts, f"const ${_stem(name)} = (() => {{\n{own}return {{{given}}};\n}})();\n"]
