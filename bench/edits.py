#!/usr/bin/env python3
"""Tries the mutations of tests/mutants/: one-line changes, each of which the contracts of its crate must reject.

    bench/edits.py             those of the crates whose contracts have changed since they were last tried
    bench/edits.py --all       those of every crate
    bench/edits.py --fit       none: only whether each can be applied, and whether of some crate they are due
    bench/edits.py NAME..      those of these crates

The mutations of crates/*/must-fail are tried by every `rt ci`. Those of tests/mutants/NAME are tried here by `rt must-fail`,
in a copy of the repository that is removed again, over what `rt check` has kept in any checkout on this machine. What
the contracts of a crate are is a checksum over its specs/ and over the signatures and contracts of its functions;
tests/mutants/tried.txt has, for each crate, the one over which all its edits were refused, or that of the same contracts under
new names, or without what nothing used. The exit status is 1 where an edit wasn't refused, or can't be applied, and
with --fit where they are due.
"""

import argparse
import hashlib
import pathlib
import shutil
import subprocess
import sys
import tempfile
from collections.abc import Iterable, Iterator

ROOT = pathlib.Path(__file__).resolve().parent.parent
EDITS = ROOT / "tests" / "mutants"
TRIED = EDITS / "tried.txt"


def contracts_of(text: str) -> Iterator[str]:
    """The signatures and contracts of the functions of a file, as `rt fmt` lays them out: from a line with `fn`
    to the next one, no further in, that opens the body or ends the declaration."""
    depth = None
    for line in text.splitlines():
        bare = line.strip()
        if depth is None and "fn" in bare.split("(")[0].split() and not bare.startswith("//"):
            depth = len(line) - len(line.lstrip())
        if depth is not None:
            yield bare
            if len(line) - len(line.lstrip()) == depth and bare.endswith(("{", ";", "{}")):
                depth = None


def without_layout(text: str) -> str:
    """The text without its comments, blanks and last separators, so that a new layout changes no checksum."""
    code = "".join("".join(line.split()) for line in text.splitlines() if not line.strip().startswith(("--", "//")))
    return code.replace(";}", "}").replace(",)", ")")


def checksum(name: str) -> str:
    """A checksum of the contracts of a crate."""
    total = hashlib.sha256()
    for path in sorted((ROOT / "crates" / name / "specs").glob("**/*.antt")):
        total.update(without_layout(path.read_text()).encode())
    for path in sorted((ROOT / "crates" / name / "src").glob("**/*.rt")):
        total.update(without_layout("\n".join(contracts_of(path.read_text()))).encode())
    return total.hexdigest()[:16]


def read_tried() -> dict[str, str]:
    """The checksum over which the edits of each crate were tried last."""
    if not TRIED.exists():
        return {}
    return dict(line.split() for line in TRIED.read_text().splitlines())


def write_tried(tried: dict[str, str]) -> None:
    """Writes the checksum of each crate, by name."""
    TRIED.write_text("".join(f"{name} {tried[name]}\n" for name in sorted(tried)))


def misfits(name: str) -> Iterator[str]:
    """The edits of a crate that can't be applied, each with the text that doesn't stand once in its file."""
    for edit in sorted((EDITS / name).glob("*.edit")):
        lines = edit.read_text().splitlines()
        file = next(line[6:] for line in lines if line.startswith("file: "))
        text = (ROOT / "crates" / name / file).read_text()
        pairs = [line for line in lines if line.startswith(("old: ", "new:"))]
        for old, new in zip(pairs[::2], pairs[1::2]):
            if text.count(old[5:]) != 1:
                yield f"{edit.relative_to(ROOT)}: stands {text.count(old[5:])} times in {file}: {old[5:]}"
                break
            text = text.replace(old[5:], new.removeprefix("new:").removeprefix(" "))


def are_refused(names: Iterable[str]) -> Iterator[str]:
    """Tries the edits of these crates, and gives the names of those all of whose edits are refused."""
    listed = ["git", "ls-files", "-co", "--exclude-standard", "crates", "crates.txt", "HANDLES"]
    files = subprocess.run(listed, cwd=ROOT, capture_output=True, text=True, check=True).stdout.splitlines()
    with tempfile.TemporaryDirectory(prefix="edits-") as room:
        copy = pathlib.Path(room)
        for file in files:
            if (ROOT / file).is_file():
                (copy / file).parent.mkdir(parents=True, exist_ok=True)
                shutil.copy2(ROOT / file, copy / file)
        subprocess.run(["git", "init", "-q"], cwd=copy, check=True)
        for name in names:
            shutil.rmtree(copy / "crates" / name / "must-fail", ignore_errors=True)
            shutil.copytree(EDITS / name, copy / "crates" / name / "must-fail")
        for name in names:
            if subprocess.run(["rt", "must-fail", name], cwd=copy).returncode == 0:
                yield name


def main() -> int:
    parser = argparse.ArgumentParser(description=__doc__, formatter_class=argparse.RawDescriptionHelpFormatter)
    parser.add_argument("names", nargs="*", metavar="NAME", help="a crate that has edits")
    parser.add_argument("--all", action="store_true", help="the edits of every crate")
    parser.add_argument("--fit", action="store_true", help="try none")
    args = parser.parse_args()
    every = sorted(path.name for path in EDITS.iterdir() if path.is_dir())
    strange = [name for name in args.names if name not in every]
    if strange:
        parser.error(f"tests/mutants/ has no folder {strange[0]}")
    bad = [text for name in every for text in misfits(name)]
    print("".join(f"{text}\n" for text in bad), end="")
    tried = read_tried()
    sums = {name: checksum(name) for name in every}
    wanted = every if args.all else args.names or [it for it in every if tried.get(it) != sums[it]]
    if args.fit:
        print(f"{len(every)} crates, {len(bad)} misfits, due: {' '.join(wanted) or 'none'}")
        return 1 if bad or wanted else 0
    refused = []
    for name in are_refused(wanted) if wanted else []:
        refused.append(name)
        tried[name] = sums[name]
        write_tried({it: tried[it] for it in tried if it in every})
    for name in set(wanted) - set(refused):
        print(f"{name}: not all of its edits are refused")
    print(f"{len(every)} crates, {len(wanted)} tried, {len(wanted) - len(refused)} not refused, {len(bad)} misfits")
    return 1 if bad or len(refused) < len(wanted) else 0


if __name__ == "__main__":
    sys.exit(main())
