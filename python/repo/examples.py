"""Gives the texts of docs/ and the files of examples/ to the program, and compares what it answers.

    python/run repo.examples [PROGRAM]         else wsc at the top of the repository

A text stands in a block of a page; after it a line has the command, and another block the answer. In a row of a table a
text can be an expression of Python between quotes; the command and the answer follow. Under a heading "Changed lines" a
row gives the changes to the page's first text that is answered `sound`: "6 `a` `b`" puts these lines in place of line 6,
"behind 6 `a`" after it, "6 out" removes it. In the manual page the shell runs a line after `$ ` at the top of the
repository, with `wsc` the program; what it writes stands below.

Where the comment of an example says "with input `W ..` it prints `W ..`", that is tried as well.
NAME.job answers `plain`, and `run` with 1, 2 and 8 workers, as NAME.out says, and is printed by `format`
as it stands; NAME.jobs answers `multi` with 1, 2 and 8 workers; NAME.asm answers `exec --memory --stats`,
NAME.trace `replay`. What `run` and `exec`
write to standard error is NAME.err, or nothing.
"""

import pathlib
import re
import subprocess
import sys
import tempfile
from collections.abc import Iterator

from wavescalar.programs import ROOT

PROGRAM = pathlib.Path(sys.argv[1] if len(sys.argv) > 1 else ROOT / "wsc").resolve()
PAIR = re.compile(r"^```\n((?:(?!^```).)*?)^```\nanswers `wsc ([^`]*)`\n```\n(.*?)^```\n", re.S | re.M)
ROW = re.compile(r"^\|.*\| `([\"'].*)` \| `wsc ([^`]*)` \| `([^`]*)` \|$", re.M)
CHANGED = re.compile(r"^\|[^|\n]*\| Changed lines \| `wsc ([^`]*)` answers \|\n\|[-|]*\n((?:\|.*\n)*)", re.M)
SAID = re.compile(r"with input `([\d ]*)` it prints `([\d ]*)`", re.I)
ENDS = {"halt": 0, "fault": 8, "budget": 3, "turns": 3, "refused": 2, "port": 6}


def answer(words: list[str], text: str) -> tuple[str, str, int]:
    """What the program writes to standard output and to standard error, and its status."""
    run = subprocess.run([PROGRAM, *words], input=text.encode(), capture_output=True, check=False)
    return run.stdout.decode(), run.stderr.decode(), run.returncode


def status_of(told: str) -> int:
    """The status that belongs to an answer: of several threads that of the first that isn't 0."""
    ends = [re.findall(r"^(halt|budget|turns|fault|refused|port)(?:$| [^=\n]*$)", part, re.M)
            for part in re.split(r"^thread \d+$", told, flags=re.M)]
    return next((ENDS[found[0]] for found in ends if found and ENDS[found[0]]), 0)


def difference(name: str, words: list[str], text: str, wanted: str, errors: str | None = None) -> list[str]:
    """What the program answers otherwise, or nothing; standard error is looked at where it is told."""
    found, written, status = answer(words, text)
    if (found, status) != (wanted, status_of(wanted)) or errors not in (None, written):
        told = f"{name}: wsc {' '.join(words)} answers with status {status}"
        return [f"{told}\n{found}{written}and not\n{wanted}"]
    return []


def changed_rows(told: str) -> Iterator[tuple[str, str, str]]:
    """The texts of the tables of changed lines, each with its command and its answer."""
    smallest = next((text for text, _, wanted in PAIR.findall(told) if wanted == "sound\n"), "")
    for words, rows in CHANGED.findall(told):
        for row in rows.splitlines():
            cells = re.split(r"(?<!\\) \| ", row.strip("| "))
            yield changed(smallest, cells[-2].replace("\\|", "|")), words, cells[-1].strip("` ") + "\n"


def changed(text: str, told: str) -> str:
    """A text with the changes of its lines, counted from 1, that a cell tells."""
    lines = {number: [line] for number, line in enumerate(text.splitlines(), 1)}
    for behind, number, new in re.findall(r"(behind )?(\d+) (out|`[^`]*`(?: `[^`]*`)*)", told):
        lines[int(number)] = (lines[int(number)] if behind else []) + re.findall(r"`([^`]*)`", new)
    return "".join(line + "\n" for number in sorted(lines) for line in lines[number])


def pairs_of(page: pathlib.Path, longest: int | None = None) -> Iterator[tuple[str, str, str]]:
    """The texts of a page, at most so long, each with the words of its line and its answer."""
    told = page.read_text()
    made = ((eval(text), words, wanted + "\n") for text, words, wanted in ROW.findall(told))
    for text, words, wanted in (*PAIR.findall(told), *made, *changed_rows(told)):
        if longest is None or len(text) <= longest:
            yield text, words, wanted


def of_page(page: pathlib.Path) -> tuple[int, list[str]]:
    """The number of a page's texts, and what is wrong with them."""
    count, wrong = 0, []
    for text, words, wanted in pairs_of(page):
        count += 1
        wrong += difference(f"{page.name}\n{text[:2000]}", words.split(), text, wanted)
    return count, wrong


def of_manual(page: pathlib.Path) -> tuple[int, list[str]]:
    """The commands of the manual page, and what is wrong with them."""
    seen, wrong, lines = 0, [], page.read_text().replace("\\e", "\\").replace("\\-", "-").splitlines()
    with tempfile.TemporaryDirectory() as folder:
        (pathlib.Path(folder) / "wsc").symlink_to(PROGRAM)
        for at, line in enumerate(lines):
            if not line.startswith("$ "):
                continue
            end = next(k for k in range(at + 1, len(lines)) if lines[k].startswith(("$ ", ".Ed")))
            wanted = "".join(text.removeprefix("\\&") + "\n" for text in lines[at + 1 : end])
            call = f"PATH={folder}:$PATH\n{line[2:]}"
            run = subprocess.run(call, shell=True, cwd=ROOT, capture_output=True, text=True, check=False)
            seen += 1
            if run.stdout + run.stderr != wanted:
                wrong.append(f"{page.name}: {line}\ngives\n{run.stdout}{run.stderr}and not\n{wanted}")
    return seen, wrong


def of_comment(name: str, text: str) -> list[str]:
    """What is wrong with what the comment of an assembly says of other input."""
    image, wrong = text.split("%input\n")[0], []
    comment = " ".join(line.strip("# ") for line in image.splitlines() if line.startswith("#"))
    for given, printed in SAID.findall(comment):
        wanted = "".join(word + "\n" for word in printed.split()) + "halt\n"
        wrong += difference(name, ["exec"], f"{image}%input\n{given}\n", wanted)
    return wrong


def of_file(file: pathlib.Path) -> list[str]:
    """What is wrong with an example."""
    text, wanted = file.read_text(), file.with_suffix(".out").read_text()
    errors = file.with_suffix(".err").read_text() if file.with_suffix(".err").exists() else ""
    if file.suffix == ".trace":
        return difference(file.name, ["replay"], text, wanted, "")
    crews = [["--workers", count] for count in ("1", "2", "8")]
    if file.suffix == ".jobs":
        return [line for crew in crews for line in difference(file.name, ["multi", *crew], text, wanted, errors)]
    if file.suffix == ".asm":
        runs = [["exec", "--memory", "--stats", *crew] for crew in crews]
        wrong = [line for words in runs for line in difference(file.name, words, text, wanted, errors)]
        return wrong + of_comment(file.name, text)
    wrong = difference(file.name, ["plain"], text, wanted, "")
    for crew in crews:
        wrong += difference(file.name, ["run", *crew], text, wanted, errors)
    program = text.split("%input\n")[0]
    found = answer(["format"], text)[0]
    if answer(["format"], found)[0] != found or "#" not in program and found != program:
        wrong.append(f"{file.name} is not as format prints it:\n{found}")
    return wrong


def main() -> int:
    found = [of_page(page) for page in sorted((ROOT / "docs").glob("*.md"))]
    found += [of_manual(page) for page in (ROOT / "docs").glob("*.1")]
    files = sorted(file for end in ("job", "jobs", "asm", "trace")
                   for file in (ROOT / "examples").glob(f"*.{end}"))
    wrong = [line for _, lines in found for line in lines]
    wrong += [line for file in files for line in of_file(file)]
    counted = f"{sum(count for count, _ in found)} texts, {len(files)} examples, {len(wrong)} wrong"
    print("\n".join([*wrong, counted]))
    return 1 if wrong else 0


if __name__ == "__main__":
    sys.exit(main())
