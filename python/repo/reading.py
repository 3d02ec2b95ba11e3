"""docs/DEFINITIONS.md names the definitions that a statement rests on, and no others, and docs/THEOREM.md shows the
statements as they stand.

    python/run repo.reading            compares the reading lists with what the statements reach, and the blocks of
                                  docs/THEOREM.md with the definitions that they show
    python/run repo.reading --write    writes both as they are
    python/run repo.reading NAME..     says what these reach: wsc_top/Calls.CallEnds names a definition, by crate, file of
                                  specs/ and name; wsc_top/src/call.rt:wsc the clauses of a function

A definition reaches the names that it uses, which the `use` lines of its file resolve. It is cut into pieces, the
fields of a record, the cases of data and the equations of a function, so that a list can leave out those that need
no unfolding (`NEED_NO_UNFOLDING`). Lines are those of definitions, without imports, blanks and comments. The
library's words are not counted, nor what a trait or an `impl Model` says; a name that a pattern, a λ or a head binds
is no use of the definition of that name.
"""

import collections
import functools
import pathlib
import re
import sys
import textwrap
from collections.abc import Sequence
from dataclasses import dataclass, field

from repo import antt
from repo.antt import Declaration, Imports, Line, joined, member_name
from wavescalar.programs import ROOT

CRATES = ROOT / "crates"
PAGE = ROOT / "docs" / "DEFINITIONS.md"
THEOREM = ROOT / "docs" / "THEOREM.md"

# What the lists of the headline leave out.
NEED_NO_UNFOLDING = (r"wsc_top/Calls\.CallEnds", r"opt_top/Calls\.CallEnds", r"wsc_top/Answers\.TellWords",
                     r"ws_isa/Image\.Image")

# The statements of the headline, by the file of one_result/specs that has them.
STATEMENTS = {
    "OneResult": ("OneResult", "OneImageResult", "OneFront", "OneImageFront"),
    "Others": (
        *("OneMemory", "OneImageMemory", "OneStats", "OneImageStats", "OneCount", "OneRunCount"),
        *("OneResultWith", "OneImageResultWith", "OneMulti", "OneTrace", "OneBench"),
    ),
    "Sequential": ("OneMeaning", "JobMeaning"),
    "Ends": ("JobsEnd", "CodeEnds", "AssembliesEnd", "NeverEnds"),
    "Streams": (
        *("OneStreamResult", "OneStreamAgain", "OneStreamCount", "OneStreamFront", "OneStreamBrokenOff"),
        *("OneStreamJob", "StreamMeaning", "StreamsEnd", "StreamCodeEnds"),
    ),
}

# The lists of the page: a heading, what stands above the files, the statements, and what is left out.
LISTS = (
    (
        "### For the headline alone",
        "To believe that one text has one result, in whatever order the instructions fire, read {files} files: "
        "{definitions} definitions, {lines} lines without comments and imports. Start with "
        "`one_result/specs/OneResult.antt`, whose head says why `CallEnds` and the image need not be unfolded.",
        tuple(f"one_result/OneResult.{name}" for name in STATEMENTS["OneResult"]),
        NEED_NO_UNFOLDING,
    ),
    (
        "### For the headline with all commands and options",
        "To believe the same of runs with and without `--memory`, of `--stats`, of ports that have words left, of "
        "`multi`, `trace` with `replay`, and `bench`, read {files} files: {definitions} definitions, {lines} lines, and "
        "the {types} types of the code that they name, {type_lines} lines. Start with `one_result/specs/Others.antt`.",
        tuple(f"one_result/Others.{name}" for name in STATEMENTS["Others"]),
        NEED_NO_UNFOLDING,
    ),
    (
        "### For the headline and what it means",
        "To believe that this result is that of the sequential run, read {files} files: {definitions} definitions, "
        "{lines} lines, and the {types} types of the code that they name, {type_lines} lines. Start with "
        "`one_result/specs/Sequential.antt`. That the program is accepted (`JobMeaning`), and that a job reaches its "
        "result (`one_result/specs/Ends.antt`), rests on the rules of the language and on the command line too.",
        ("one_result/Sequential.OneMeaning",),
        NEED_NO_UNFOLDING,
    ),
)

# In which order the page gives the files, by what they speak of.
TOPICS = (
    ("The statements", ("one_result",)),
    ("The call and its answer", ("wsc_top", "ws_io")),
    ("The command line", ("wsc_top/Tasks", "wsc_words")),
    ("The text of the job", ("wsc_top/Job", "wsc_top/Sections", "ws_words/Digits", "ws_words/Letters", "src_lex")),
    ("The language", ("src_ast",)),
    (
        "The run",
        ("src_ast/Turns", "src_ast/Meaning", "src_ast/Runs", "src_ast/Bound", "ws_words/Operators", "ws_words"),
    ),
    ("The ports", ("port_set", "store_buf", "df_core", "ws_words/Plain", "wave_gen", "ws_isa")),
)

NAME = re.compile(r"[A-Za-z_][\w'-]*(?:\.[A-Za-z_][\w'-]*)*")
BINDER = re.compile(r"[({]\s*((?:[\w']+\s+)+):")
LAMBDA = re.compile(r"λ\s+([^.]*)\.")


@dataclass
class Definition:
    """A definition, or several of one `mutual`.

    names: its own; of a `mutual` those of all that are declared in it.
    pieces: its parts, each with its name: its head, and fields, cases or equations.
    heads: what binds names for all of it: the parameters of modules around it, and those of a record or data.
    """

    crate: str
    file: str
    line: int
    kind: str
    names: list[str]
    pieces: list[tuple[str, list[str]]] = field(default_factory=list)
    heads: str = ""

    @property
    def label(self) -> str:
        return f"{self.crate}/{self.file}.{self.names[0]}"


@dataclass
class File:
    """A file of specs/, or the ghost part of one of src/: what its names stand for."""

    crate: str
    imports: Imports = field(default_factory=Imports)
    definitions: dict[str, Definition] = field(default_factory=dict)


# A type of the code: its crate, the file that has it, and its name.
Declared = tuple[str, str, str]
Found = Definition | Declared

# Definitions by their labels, each with how many lines of it are read.
Reached = dict[str, tuple[Definition, int]]


def texts(lines: Sequence[Line]) -> list[str]:
    """Lines without what says where they stand."""
    return [line.text for line in lines]


def left_side(equation: Sequence[Line]) -> str:
    """What stands before the `=` of an equation."""
    return " ".join(texts(equation)).partition("=")[0].strip()


def definition_of(crate: str, file: str, it: Declaration) -> Definition:
    """A declaration that is no part of a `mutual`."""
    made = Definition(crate, file, it.number, it.head.kind or "abbrev", [it.name], [("", texts(it.statement))])
    made.heads = " ".join([*it.around, *(texts(it.statement) if it.members else [])])
    made.pieces += [(member_name(member), texts(member)) for member in it.members]
    made.pieces += [(left_side(equation), texts(equation)) for equation in it.equations]
    return made


def read_specs(path: pathlib.Path) -> File:
    """A file of specs/ with its definitions. The names of a `mutual`, and those of cases, stand for the whole of it."""
    crate, read = path.relative_to(CRATES).parts[0], antt.File(path.read_text())
    file, groups = File(crate, read.imports), dict[int, Definition]()
    for it in read.declarations:
        if it.group:
            first = it.group[0].number
            whole = Definition(crate, path.stem, first, "mutual", [], [("", texts(it.group))], " ".join(it.around))
            now = groups.setdefault(first, whole)
            now.names.append(it.name)
        else:
            now = definition_of(crate, path.stem, it)
        file.definitions[it.name] = now
        for member in it.members if it.head.kind == "data" else ():
            file.definitions.setdefault(member_name(member), now)
    return file


@functools.cache
def specs() -> dict[tuple[str, str], File]:
    """The files of specs/ by crate and name."""
    paths = sorted(CRATES.glob("*/specs/*.antt"))
    return {(it.relative_to(CRATES).parts[0], it.stem): read_specs(it) for it in paths}


@functools.cache
def declared(crate: str, module: str, name: str) -> int:
    """How many lines a type of the code has."""
    for path in sorted((CRATES / crate / "src").rglob(f"{module}.rt")):
        lines = path.read_text().splitlines()
        for at, line in enumerate(lines):
            if re.match(rf"(pub(\(\w+\))? )?(struct|enum|type) {re.escape(name)}\b", line):
                if not line.endswith("{"):
                    return 1
                return next(end for end in range(at, len(lines)) if lines[end].startswith("}")) - at + 1
    return 0


def bound(definition: Definition, name: str, text: str) -> set[str]:
    """The names that a piece binds: in its head and its binders, in a λ, as its fields, and on the left of `=`."""
    groups = BINDER.findall(f"{definition.heads} {text}") + LAMBDA.findall(text)
    found = {it for group in groups for it in re.findall(r"[\w']+", group)}
    if definition.kind == "record":
        found |= {it for it, _ in definition.pieces}
    elif definition.kind == "abbrev" and name:
        found |= {it for it in NAME.findall(name) if it.islower() and "." not in it}
    return found - set(definition.names)


def resolve(file: File, word: str) -> Found | None:
    """What a name stands for: a definition, a type of the code, or nothing of this repository."""
    first, _, rest = word.partition(".")
    if file.imports.files.get(first, "").startswith("Rattle."):
        module, name = file.imports.files[first], rest.partition(".")[0]
    elif first in file.imports.names:
        module, name = file.imports.names[first]
    else:
        return file.definitions.get(first)
    parts = module.split(".")
    if len(parts) < 4 or parts[2] != "specs":
        return None
    if parts[3] == "declared":
        return (parts[1], parts[4], parts[5] if len(parts) > 5 else name)
    its = specs().get((parts[1], parts[3]))
    if its is None:
        return None
    return its.definitions.get(name) or (its.definitions.get(parts[4]) if len(parts) > 4 else None)


def words_of(file: File, text: str) -> set[str]:
    """The names of a text, and its operators among those of the file; not what stands in strings and comments, nor the
    fields of a `record { field = .. }`."""
    text = re.sub(r'codes "[^"]*"|--.*', " ", text)
    text = re.sub(r"([{;]\s*)[\w']+ = ", r"\1", text)
    operators = {it for it in (*file.imports.names, *file.definitions) if "◌" in it and it.strip("◌") in text.split()}
    return operators | {it[0] for it in NAME.finditer(text) if text[it.start() - 1 : it.start()] != "."}


def uses(definition: Definition, leave_out: Sequence[str]) -> tuple[list[Found], int]:
    """What a definition uses, and how many lines of it are read."""
    file, found, lines = specs()[definition.crate, definition.file], [], 0
    for name, told in definition.pieces:
        if any(re.fullmatch(it, f"{definition.label}:{name}", re.DOTALL) for it in leave_out):
            continue
        lines += len(told)
        text = "\n".join(told)
        without = bound(definition, name, text)
        found += [resolve(file, it) for it in sorted(words_of(file, text) - without)]
    return [it for it in found if it], lines


def left_out(found: Found, leave_out: Sequence[str]) -> bool:
    """Whether a list leaves out all of a definition or type."""
    label = found.label if isinstance(found, Definition) else f"{found[0]}/declared.{found[2]}"
    return any(re.fullmatch(it, label) for it in leave_out)


def of_function(name: str) -> list[Found]:
    """What the clauses of a function use."""
    place, _, function = name.partition(":")
    lines = list(joined((CRATES / place).read_text()))
    file = File(place.split("/")[0])
    for _, line in lines:
        file.imports.take(line)
    start = next(at for at, (_, line) in enumerate(lines) if re.search(rf"\bfn {function}\b", line))
    end = next(at for at in range(start, len(lines)) if lines[at][1] in ("{", "{}"))
    clauses = "\n".join(line for _, line in lines[start:end] if not line.lstrip().startswith("//"))
    clauses = clauses[clauses.index(" requires" if " requires" in clauses else " ensures") :]
    return [it for it in (resolve(file, it) for it in sorted(words_of(file, clauses))) if it]


def of_name(name: str) -> list[Found]:
    """What a name of the command line begins with."""
    if ".rt:" in name:
        return of_function(name)
    crate, _, rest = name.partition("/")
    file, _, its = rest.partition(".")
    return [specs()[crate, file].definitions[its]]


def reach(names: Sequence[str], leave_out: Sequence[str]) -> tuple[Reached, set[Declared]]:
    """The definitions that these names reach, with the lines that are read, and the types of the code."""
    left = [it for name in names for it in of_name(name)]
    found: Reached = {}
    types: set[Declared] = set()
    while left:
        it = left.pop(0)
        if left_out(it, leave_out):
            continue
        if not isinstance(it, Definition):
            types.add(it)
        elif it.label not in found:
            more, lines = uses(it, leave_out)
            found[it.label] = (it, lines)
            left += more
    return found, types


def by_file(found: Reached) -> dict[tuple[str, str], list[tuple[Definition, int]]]:
    """The definitions that are reached by crate and file, in their order."""
    files = collections.defaultdict(list)
    for it, lines in sorted(found.values(), key=lambda its: (its[0].crate, its[0].file, its[0].line)):
        files[it.crate, it.file].append((it, lines))
    return files


def topic(crate: str, file: str) -> int:
    """The place of a file among the topics: the one that names the file, else the one that names its crate."""
    for key in (f"{crate}/{file}", crate):
        for at, (_, keys) in enumerate(TOPICS):
            if key in keys:
                return at
    return len(TOPICS)


def told(crate: str, file: str, its: list[tuple[Definition, int]]) -> str:
    """A file in the list, and which of its definitions are read, where not all are."""
    all_of_it = {id(it) for it in specs()[crate, file].definitions.values()}
    text = f"`{crate}/specs/{file}.antt`"
    if len(its) < len(all_of_it):
        names = [f"`{it.names[0]}`" for it, _ in its]
        text += f" ({', '.join(names) if len(its) < 7 else f'{len(its)} of {len(all_of_it)} definitions'})"
    return text


def section(intro: str, names: Sequence[str], leave_out: Sequence[str]) -> str:
    """The text of a list."""
    found, types = reach(names, leave_out)
    files = by_file(found)
    counts = {
        "files": len(files),
        "definitions": len(found),
        "lines": f"{sum(lines for _, lines in found.values()):,}",
        "types": len(types),
        "type_lines": sum(declared(*it) for it in types),
    }
    topics = collections.defaultdict(list)
    for (crate, file), its in files.items():
        topics[topic(crate, file)].append(told(crate, file, its))
    text = [textwrap.fill(intro.format(**counts), 118, break_long_words=False, break_on_hyphens=False), ""]
    for number, at in enumerate(sorted(topics), 1):
        title = TOPICS[at][0] if at < len(TOPICS) else "Others"
        item = f"{number}. {title}: {', '.join(topics[at])}."
        text.append(textwrap.fill(item, 118, subsequent_indent="   ", break_long_words=False, break_on_hyphens=False))
    return "\n".join(text)


def on_page(page: str, heading: str) -> tuple[int, int] | None:
    """Where the text below a heading stands in the page; nothing if there is no such heading."""
    start = page.find(f"\n{heading}\n")
    if start < 0:
        return None
    start += len(heading) + 2
    end = page.find("\n#", start)
    return start, len(page) if end < 0 else end


def shown(name: str) -> str:
    """A statement as its file has it, from its name to the next blank line."""
    file = next(it for it in STATEMENTS if name in specs()["one_result", it].definitions)
    lines = (CRATES / "one_result" / "specs" / f"{file}.antt").read_text().splitlines()
    start = specs()["one_result", file].definitions[name].line - 1
    end = next((at for at in range(start, len(lines)) if not lines[at].strip()), len(lines))
    return "".join(f"{line}\n" for line in lines[start:end])


def theorem() -> tuple[str, list[str]]:
    """The page of the theorem with each block as its definition stands, and what is wrong with it."""
    page, wrong, seen = THEOREM.read_text(), [], set()

    def block(found: re.Match[str]) -> str:
        name = re.sub(r"^((abbrev|pub|record|data)\s+)+", "", found[1]).split()[0]
        seen.add(name)
        if shown(name) != found[1]:
            wrong.append(f"{THEOREM.name}: {name} is not as it stands")
        return f"```antt\n{shown(name)}```\n"

    written = re.sub(r"^```antt\n(.*?)^```\n", block, page, flags=re.DOTALL | re.MULTILINE)
    missing = [name for names in STATEMENTS.values() for name in names if name not in seen]
    wrong += [f"{THEOREM.name}: it doesn't show {name}" for name in missing]
    return written, wrong


def show(names: Sequence[str]) -> None:
    """Says what names reach."""
    found, types = reach(names, ())
    for (crate, file), its in by_file(found).items():
        print(f"{crate}/specs/{file}.antt: {len(its)} definitions, {sum(lines for _, lines in its)} lines")
        for it, lines in its:
            print(f"    {it.line}: {'/'.join(it.names)} {lines}")
    for crate, module, name in sorted(types):
        print(f"{crate}/src/{module}.rt: {name} {declared(crate, module, name)}")
    lines = sum(lines for _, lines in found.values())
    print(f"{len(by_file(found))} files, {len(found)} definitions, {lines} lines; {len(types)} types of the code")


def main() -> int:
    if sys.argv[1:] and sys.argv[1] != "--write":
        show(sys.argv[1:])
        return 0
    page, wrong = PAGE.read_text(), []
    for heading, intro, names, leave_out in LISTS:
        place, text = on_page(page, heading), section(intro, names, leave_out)
        if not place:
            wrong.append(f"{PAGE.name}: no heading {heading!r}")
        elif page[slice(*place)].split() != text.split():
            wrong.append(f"{PAGE.name}: {heading.removeprefix('### ')!r} is not what the statement reaches")
            page = f"{page[: place[0]]}\n{text}\n{page[place[1] :]}"
    statement_page, its_wrong = theorem()
    wrong += its_wrong
    if sys.argv[1:] == ["--write"]:
        PAGE.write_text(page)
        THEOREM.write_text(statement_page)
        wrong = [it for it in wrong if "no heading" in it or "doesn't show" in it]
    print("".join(f"{it}\n" for it in wrong), end="")
    count = sum(len(it) for it in STATEMENTS.values())
    print(f"{len(LISTS)} reading lists and {count} statements, {len(wrong)} wrong")
    return 1 if wrong else 0


if __name__ == "__main__":
    sys.exit(main())
