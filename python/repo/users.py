"""Functions, types, laws, lemmas and definitions have a user.

    python/run repo.users            says which have none, and which are used by such alone
    python/run repo.users --all      says also those that users.allowed names
    python/run repo.users --tests    says which are used by tests, edits and benches alone

Users are followed from what is used from outside: `main` of the programs, the tests of crates, the programs
of bench/rattle, the lines that edits of tests/mutants/ and must-fail/ put in, what docs/THEOREM.md, DEFINITIONS.md,
PROVED.md and BACKEND.md name in quotes, and what a line of `.ci/checks/users.allowed` names. What is reached
from none of these has no user. A law needs no caller where one of these pages names it.

A function uses what its contract, its tactics and its body name, and what the answers to its goals do; a type
what the impls of its traits do. An import is no use, nor is `pub use`. Of a call behind a dot nothing but the
name is looked at: it is a call of each method of that name. An import of bench/rattle that names nothing is
reported.

A line of `users.allowed` gives a place and says why it stays: CRATE/FILE.NAME, without the folder src/,
specs/ or proofs/; of a method CRATE/FILE.TYPE.NAME; of all that a file has CRATE/FILE.*.
"""

import collections
import gc
import pathlib
import re
import sys
from collections.abc import Iterable, Iterator

from repo.antt import Declaration, File, Imports, crates, member_name, stands_on
from wavescalar.programs import ROOT

CRATES = ROOT / "crates"
ALLOWED = ROOT / ".ci" / "checks" / "users.allowed"
PAGES = ("THEOREM", "DEFINITIONS", "PROVED", "BACKEND")
STATEMENTS = [f"Rattle.one_result.specs.{name}" for name in ("OneResult", "Others", "Sequential", "Ends", "Streams")]

WORD = re.compile(r"[^\s(){}\[\],;]+")
QUOTED = re.compile(r'"(?:\\.|[^"\\])*"')
SHOWN = re.compile(r"\{(\w+)")
RUST_COMMENT = re.compile(r"//.*$", re.MULTILINE)
KINDS = "fn|struct|enum|trait|type|const|static|impl|use|mod"
RUST_HEAD = re.compile(rf"(?:pub(?:\(\w+\))? )?(?:(?:const|unsafe|ghost) )*({KINDS})\b ?(.*)")
BODY_OF_LAW = re.compile(r"(?:\s*[\w:]+\(\);)*\s*\}")
METHOD = re.compile(r"    (?:pub(?:\(\w+\))? )?(?:const )?fn (\w+)")
PATH = re.compile(r"[A-Za-z_]\w*(?:::[A-Za-z_]\w*)*")
CALL = re.compile(r"(?:\.|>::)([a-z_]\w*)(?=\(|::<)")


class Item:
    """What may have a user: its place, and what it names, once that is known."""

    __slots__ = ("crate", "name", "path", "line", "text", "uses", "kind", "type")

    def __init__(self, crate: str, name: str, path: pathlib.Path, line: int, kind: str) -> None:
        self.crate, self.name, self.path, self.line, self.kind = crate, name, path, line, kind
        self.text: list[str] = []
        self.uses: set[Item] = set()
        self.type = ""

    @property
    def file(self) -> str:
        """The place that stands for all items of its file."""
        crate, _, *folders, _ = self.path.relative_to(CRATES).parts
        return f"{'/'.join([crate, *folders, self.path.stem])}.*"

    @property
    def place(self) -> str:
        """Its crate, its file and its name."""
        return self.file[:-1] + self.name

    def places(self) -> set[str]:
        return {self.file, self.place}

    def is_law(self) -> bool:
        """Whether it is a function that says something and does nothing but cite others that do."""
        head, _, body = " ".join(self.text).rpartition("{")
        return self.kind == "fn" and " ensures " in head and bool(BODY_OF_LAW.fullmatch(body))

    def __str__(self) -> str:
        return f"{self.path.relative_to(ROOT)}:{self.line}: {self.name}"


class Theory:
    """A file of specs/ or proofs/: its declarations, and what is imported."""

    def __init__(self, path: pathlib.Path) -> None:
        self.path, self.crate = path, path.relative_to(CRATES).parts[0]
        self.name = ".".join(["Rattle", *path.relative_to(CRATES).with_suffix("").parts])
        self.items: dict[str, Item] = {}
        self.every: list[Item] = []
        self.answers: list[Item] = []
        file = File(path.read_text())
        self.imports = file.imports
        for declaration in file.declarations:
            self.take(declaration)
        # The folder of a module of src/ has the module's name, that of a group of lemmas a capital one.
        _, _, folder, *_ = path.relative_to(CRATES).parts
        if folder != path.name and not folder[0].isupper():
            self.answers = [item for item in self.every if self.is_goal(item.type)]
            self.every = [item for item in self.every if not self.is_goal(item.type)]

    def take(self, it: Declaration) -> None:
        """The item that a declaration is. Constructors stand for their type."""
        item = Item(self.crate, it.name, self.path, it.number, it.head.kind or "statement")
        item.type = it.type
        item.text = [*it.around, it.type, *(line.text for line in it.body)]
        if item.name in self.items:
            # Modules of a file may have the same name each: those are used together.
            item.uses.add(self.items[item.name])
        self.items[item.name] = item
        self.every.append(item)
        for member in it.members if item.kind == "data" else ():
            self.items.setdefault(member_name(member), item)

    def is_goal(self, type_: str) -> bool:
        """Whether a type is a goal that the prover states."""
        word = (WORD.findall(type_) or [""])[0]
        head = word.partition(".")[0]
        file = self.imports.files.get(head) or self.imports.names.get(word, ("", ""))[0]
        return file.endswith((".Goals", ".Given"))


class Source:
    """A file of src/: its items, what is imported, and what is declared below it."""

    def __init__(self, path: pathlib.Path, crate: str, module: tuple[str, ...]) -> None:
        self.path, self.crate, self.module = path, crate, module
        self.ghosts = Imports()
        self.imports: dict[str, tuple[str, ...]] = {}
        self.items: dict[str, Item] = {}
        self.methods: list[tuple[str, Item]] = []
        self.impls: list[tuple[str, str, Item]] = []
        self.tests: list[Item] = []
        self.root = Item(crate, "", path, 1, "file")
        self.scope: dict[str, Item] = {}
        text = RUST_COMMENT.sub("", path.read_text())
        for found in re.finditer(r"^ *(?:pub )?ghost use ([^;]*);", text, re.MULTILINE):
            self.ghosts.take(f"use {' '.join(found[1].split())}")
        for found in re.finditer(r"^(?:pub(?:\(\w+\))? )?use ([^;]*);", text, re.MULTILINE):
            self.imports.update(spread("".join(found[1].replace(" as ", " ").split("\n"))))
        self.read(text.splitlines())

    def own(self) -> list[Item]:
        """All items of the file that have names."""
        return [*self.items.values(), *(item for _, item in self.methods)]

    def read(self, lines: list[str]) -> None:
        """Takes the items, and of impls of a type the methods."""
        item, pending, owner = self.root, list[str](), ""
        outer = item
        for number, line in enumerate(lines, 1):
            text = line.strip()
            if not text or text.startswith(("ghost use ", "pub ghost use ")):
                continue
            if not line.startswith(" "):
                if text.startswith("#["):
                    pending.append(text)
                    continue
                head = RUST_HEAD.match(text)
                if not head:
                    item = outer if text[0] == "}" else item
                    item.text.append(text)
                    continue
                item = outer = self.item(head[1], head[2], number)
                owner = owner_of(head[2]) if head[1] == "impl" else ""
                item.text += [*pending, text]
                if any(it.startswith("#[test") for it in pending):
                    self.tests.append(item)
                pending = []
                continue
            method = METHOD.match(line) if owner else None
            if owner and line.startswith("    #["):
                pending.append(text)
            elif method:
                item = Item(self.crate, f"{owner}.{method[1]}", self.path, number, "method")
                item.type = owner
                item.text += [*pending, text]
                self.methods.append((owner, item))
                pending = []
            else:
                item.text += [*pending, text]
                pending = []
                if owner and line == "    }":
                    item = outer

    def item(self, word: str, rest: str, number: int) -> Item:
        """The item that a head begins; that of the file where it has no name of its own."""
        if word == "impl":
            found = Item(self.crate, rest, self.path, number, "impl")
            plain = re.sub(r"<[^<>]*>", "", re.sub(r"<[^<>]*>", "", re.sub(r"<[^<>]*>", "", rest)))
            trait, of, kind = plain.removesuffix("{").strip().partition(" for ")
            words = PATH.findall(kind if of else trait)
            self.impls.append((words[0] if words else "", PATH.findall(trait)[0] if of else "", found))
            return found
        name = re.match(r"(?:mut )?(\w+)", rest)
        if word in ("use", "mod") or not name or name[1] == "_":
            return Item(self.crate, "", self.path, number, "file") if word in ("use", "mod") else self.root
        return self.items.setdefault(name[1], Item(self.crate, name[1], self.path, number, word))


def owner_of(rest: str) -> str:
    """The type of an impl of methods; nothing for an impl of a trait."""
    if " for " in rest:
        return ""
    depth = 0
    for at, sign in enumerate(rest):
        depth += (sign == "<") - (sign == ">")
        name = PATH.match(rest, at) if depth == 0 and sign not in "<> " else None
        if name:
            return name[0]
    return ""


def spread(text: str, before: tuple[str, ...] = ()) -> Iterator[tuple[str, tuple[str, ...]]]:
    """Each name that an import gives, and its path."""
    parts, depth, start = [], 0, 0
    for at, sign in enumerate(text + ","):
        depth += (sign == "{") - (sign == "}")
        if sign == "," and depth == 0:
            parts.append(text[start:at].strip())
            start = at + 1
    for part in filter(None, parts):
        path, brace, rest = part.partition("{")
        names = tuple(filter(None, path.strip().split("::")))
        if brace:
            yield from spread(rest.strip().removesuffix("}"), before + names)
        else:
            *most, last = names
            last, _, short = last.partition(" ")
            whole = (*before, *most, last) if last != "self" else (*before, *most)
            yield short or whole[-1], whole


class House:
    """All files, and what the names in them mean."""

    def __init__(self) -> None:
        self.below = {crate: {crate, *under} for crate, under in stands_on(crates()).items()}
        self.theories: dict[str, Theory] = {}
        self.sources: dict[tuple[str, tuple[str, ...]], Source] = {}
        for crate in self.below:
            for part in ("specs", "proofs"):
                for path in sorted((CRATES / crate / part).glob("**/*.antt")):
                    theory = Theory(path)
                    self.theories[theory.name] = theory
            for path in sorted((CRATES / crate / "src").glob("**/*.rt")):
                module = path.relative_to(CRATES / crate / "src").with_suffix("").parts
                module = () if module in (("lib",), ("main",)) else module
                self.sources[crate, module] = Source(path, crate, module)
        self.benches = []
        for path in sorted((ROOT / "bench" / "rattle").glob("*")):
            crate = f"bench/{path.stem}"
            self.below[crate] = {crate, *self.below}
            self.sources[crate, ()] = Source(path, crate, ())
            self.benches.append(self.sources[crate, ()])
        self.methods: dict[tuple[str, str], list[Item]] = collections.defaultdict(list)
        self.by_type: dict[tuple[str, str, str], Item] = {}
        for source in self.sources.values():
            for owner, item in source.methods:
                name = item.name.partition(".")[2]
                self.methods[source.crate, name].append(item)
                self.by_type[source.crate, owner, name] = item
        self.known_methods = {name for _, name in self.methods}

    # Names of specs/ and proofs/.

    def named(self, file: str, name: str, seen: tuple[tuple[str, str], ...] = ()) -> Item | None:
        """The item that a name of a file stands for, of src/ where it is generated."""
        theory = self.theories.get(file)
        if theory:
            head = name.partition(".")[0]
            for known in (name, head):
                if known in theory.items:
                    return theory.items[known]
                if known in theory.imports.names and (file, name) not in seen:
                    return self.named(*theory.imports.names[known], (*seen, (file, name)))
            return None
        parts = file.split(".")
        if len(parts) > 2 and parts[0] == "Rattle" and parts[2:4] == ["specs", "declared"]:
            for end in range(len(parts), 3, -1):
                source = self.sources.get((parts[1], tuple(parts[4:end])))
                if source:
                    rest = [*parts[end:], name]
                    return source.items.get(rest[0])
            return None
        # A module inside a file.
        above, _, _ = file.rpartition(".")
        return self.named(above, name, seen) if above.count(".") > 2 else None

    def scope(self, imports: Imports, own: dict[str, Item]) -> dict[str, Item]:
        """What each short name of a file means; of an operator without its places."""
        found = {name: item for name, (file, of) in imports.names.items() if (item := self.named(file, of))}
        found.update(own)
        found.update({name.strip("◌"): item for name, item in found.items() if name[0] == "◌"})
        return found

    def dotted(self, word: str, scope: dict[str, Item], files: dict[str, str]) -> Item | None:
        """What a word with a dot means: a name of a file, or what some item has."""
        head, _, rest = word.partition(".")
        if head in scope:
            return scope[head]
        if head in files:
            return self.named(files[head], rest)
        file, _, name = word.rpartition(".")
        return self.named(file, name) if head == "Rattle" else None

    def words(self, text: str, scope: dict[str, Item], files: dict[str, str]) -> set[Item]:
        """The items that the words of a text mean."""
        words = set(WORD.findall(text))
        found = {scope[word] for word in words & scope.keys()}
        for word in [word for word in words if "." in word and word[-1] != "."]:
            item = self.dotted(word, scope, files)
            if item:
                found.add(item)
        return found

    # Names of src/.

    def module(self, crate: str, path: tuple[str, ...], seen: tuple[object, ...] = ()) -> list[Item]:
        """The items that a path means from a crate's root: a type, and what it has, or a function."""
        for end in range(len(path) - 1, -1, -1):
            source = self.sources.get((crate, path[:end]))
            if not source:
                continue
            name, rest = path[end], path[end + 1 :]
            if name in source.items:
                return [source.items[name], *self.member(crate, name, rest)]
            if name in source.imports and (crate, path) not in seen:
                return self.path(source, (*source.imports[name], *rest), (*seen, (crate, path)))
        return []

    def member(self, crate: str, owner: str, rest: tuple[str, ...]) -> list[Item]:
        if not rest:
            return []
        found = self.by_type.get((crate, owner, rest[0]))
        return [found] if found else self.methods.get((crate, rest[0]), [])

    def path(self, source: Source, path: tuple[str, ...], seen: tuple[object, ...] = ()) -> list[Item]:
        """The items that a path means in a file."""
        first, rest = path[0], path[1:]
        if first == "crate":
            return self.lemma(source.crate, rest) or self.module(source.crate, rest, seen)
        if first in ("self", "super"):
            above = source.module if first == "self" else source.module[:-1]
            return self.module(source.crate, (*above, *rest), seen)
        if first in source.items:
            return [source.items[first], *self.member(source.crate, first, rest)]
        if first in source.imports and (source.path, path) not in seen and source.imports[first] != path:
            return self.path(source, (*source.imports[first], *rest), (*seen, (source.path, path)))
        if first in self.below and rest:
            return self.lemma(first, rest) or self.module(first, rest, seen)
        if rest and (source.crate, (*source.module, first)) in self.sources:
            return self.module(source.crate, (*source.module, *path), seen)
        return []

    def lemma(self, crate: str, path: tuple[str, ...]) -> list[Item]:
        """The statement that a tactic names."""
        if path[:1] not in (("proofs",), ("specs",)):
            return []
        found = self.named(".".join(["Rattle", crate, *path[:-1]]), path[-1])
        return [found] if found else []

    def code(self, source: Source, item: Item) -> set[Item]:
        """The items that the text of an item of src/ means."""
        text = QUOTED.sub(lambda found: " ".join(SHOWN.findall(found[0])), " ".join(item.text))
        found = self.words(text, source.scope, source.ghosts.files)
        for word in set(PATH.findall(text)):
            first, colons, rest = word.partition("::")
            if first == "Self" and colons:
                owner = item.type or next((it for it, _, of in source.impls if of is item), "")
                found.update(self.member(source.crate, owner, tuple(rest.split("::"))))
            elif colons or first in source.items or first in source.imports:
                found.update(self.path(source, tuple(word.split("::"))))
        for name in set(CALL.findall(text)) & self.known_methods:
            for crate in self.below[source.crate]:
                found.update(self.methods.get((crate, name), ()))
        return found

    def functions(self, theory: Theory) -> list[Item]:
        """The functions whose goals a file of proofs/ answers: one, or those that call one another."""
        *above, name = theory.path.relative_to(CRATES / theory.crate / "proofs").parts[:-1]
        source = self.sources.get((theory.crate, tuple(above)))
        if source and name[0] == "+":
            label = f"#[cycle({name[1:]})]"
            return [item for item in source.own() if label in item.text]
        if source and name in source.items:
            return [source.items[name]]
        source = self.sources.get((theory.crate, tuple(above[:-1])))
        if not source:
            return []
        kind = above[-1]
        found = self.by_type.get((theory.crate, kind, name)) or source.items.get(kind)
        found = found or next((it for of, trait, it in source.impls if of + trait == kind), None)
        return [found] if found else []

    def link(self) -> list[Item]:
        """Gives each item its uses; answers the items that need no user."""
        roots = []
        for theory in self.theories.values():
            scope = self.scope(theory.imports, theory.items)
            for item in theory.every + theory.answers:
                item.uses |= self.words(" ".join(item.text), scope, theory.imports.files)
            if theory.answers:
                functions = self.functions(theory)
                for function in functions:
                    function.uses.update(theory.answers)
                if not functions:
                    roots += theory.answers
        for source in self.sources.values():
            source.scope = self.scope(source.ghosts, {})
            for item in [source.root, *source.items.values(), *(it for _, it in source.methods)]:
                item.uses |= self.code(source, item)
            for owner, trait, item in source.impls:
                item.uses |= self.code(source, item)
                holder = self.path(source, (owner,)) if owner else []
                holder = holder or (self.path(source, (trait,)) if trait else [])
                if holder:
                    holder[0].uses.add(item)
                else:
                    roots.append(item)
            roots.append(source.root)
            if "main" in source.items and not source.module and source.path.stem == "main":
                roots.append(source.items["main"])
        return roots

    def every(self) -> Iterator[Item]:
        """All that should have a user."""
        for theory in self.theories.values():
            yield from theory.every
        for (crate, _), source in self.sources.items():
            if not crate.startswith("bench/"):
                yield from source.own()

    # What is used from outside.

    def tests(self) -> Iterator[Item]:
        for source in self.sources.values():
            yield from source.tests
        for source in self.benches:
            yield from source.own()
        yield from self.edited()

    def edited(self) -> Iterator[Item]:
        """What the new lines of edits name."""
        for path in [*ROOT.glob("tests/mutants/*/*.edit"), *CRATES.glob("*/must-fail/*.edit")]:
            crate = path.parts[-3] if path.parent.name == "must-fail" else path.parent.name
            text = path.read_text()
            file = re.search(r"^file: (.*)$", text, re.MULTILINE)
            lines = " ".join(re.findall(r"^new: (.*)$", text, re.MULTILINE))
            if not file or not file[1].endswith(".rt"):
                continue
            module = pathlib.Path(file[1]).relative_to("src").with_suffix("").parts
            source = self.sources.get((crate, () if module in (("lib",), ("main",)) else module))
            if source:
                item = Item(crate, "", path, 1, "edit")
                item.text = [lines]
                yield from self.code(source, item)

    def read(self) -> Iterator[Item]:
        """What pages name: statements of one_result, laws, and in a crate's section what it has."""
        quoted = re.compile(r"`(?:\w+::)*([A-Za-z_]\w*)`")
        for page in PAGES:
            text = (ROOT / "docs" / f"{page}.md").read_text()
            first, *sections = re.split(r"^### ", text, flags=re.MULTILINE)
            shown = set(re.findall(r"^(?:(?:abbrev|pub|record|data) )*([A-Z]\w*)", text, re.MULTILINE))
            named = {part.split("\n", 1)[0]: set(quoted.findall(part)) for part in sections}
            anywhere = set(quoted.findall(text))
            for crate, file in re.findall(r"`crates/(\w+)/proofs/([\w/]+)\.antt`", text):
                yield from self.theories[f"Rattle.{crate}.proofs.{file.replace('/', '.')}"].every
            for file in STATEMENTS:
                yield from (item for name, item in self.theories[file].items.items() if name in shown)
            for (crate, _), source in self.sources.items():
                for item in source.own():
                    name = item.name.rpartition(".")[2]
                    if name in named.get(crate, ()) or name in anywhere and item.is_law():
                        yield item


    def unknown(self) -> Iterator[str]:
        """The imports of the programs of bench/rattle that name nothing."""
        for source in self.benches:
            for name, path in source.imports.items():
                if path[0] in self.below and not self.path(source, (name,)):
                    yield f"{source.path.relative_to(ROOT)}: {'::'.join(path)} is nowhere"


def reached(roots: Iterable[Item]) -> set[Item]:
    """What roots use, and what that uses."""
    found, left = set(roots), list(roots)
    while left:
        for item in left.pop().uses:
            if item not in found:
                found.add(item)
                left.append(item)
    return found


def without(every: list[Item], used: set[Item]) -> Iterator[tuple[Item, list[Item]]]:
    """What isn't used, each with those of its users that stand in this list."""
    unused = [item for item in every if item not in used]
    own, users = set(every), collections.defaultdict(list)
    for user in unused:
        # The answers of a function's goals, and the impls of a type, are parts of it.
        found, left = {user}, [user]
        while left:
            for item in left.pop().uses - found:
                found.add(item)
                if item in own:
                    users[item].append(user)
                else:
                    left.append(item)
    for item in unused:
        yield item, users[item]


def main() -> int:
    lines = [line.partition(":") for line in ALLOWED.read_text().splitlines() if not line.startswith("#")]
    allowed = {place.strip(): why for place, _, why in lines if why.strip()}
    house = House()
    roots = [*house.link(), *house.read()]
    every = list(house.every())
    tests = reached([*roots, *house.tests()])
    if "--tests" in sys.argv:
        used = reached(roots)
        for item, _ in without([item for item in every if item in tests], used):
            print(f"{item}: used by tests, edits and benches alone")
        return 0
    may = [item for item in every if item not in tests and allowed.keys() & item.places()]
    unused = list(without(every, tests | reached(may)))
    wrong = list(house.unknown())
    for item, users in unused:
        wrong.append(f"{item}: {'used by ' + users[0].place + ', which has no user' if users else 'no user'}")
    idle = sorted(allowed.keys() - {place for item in may for place in item.places()})
    wrong += [f"{ALLOWED.name}: {place} has a user, or is gone" for place in idle]
    if "--all" in sys.argv:
        for item in may:
            print(f"{item}:{allowed.get(item.place) or allowed[item.file]}")
    print("".join(f"{line}\n" for line in wrong), end="")
    print(f"users: {len(every)} items, {len(may)} allowed to have none, {len(wrong)} wrong")
    return 1 if wrong else 0


if __name__ == "__main__":
    gc.disable()
    sys.exit(main())
