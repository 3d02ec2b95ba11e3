"""The statement of a lemma, and a definition, stands in one crate alone.

    python/run repo.copies          says which stand in two
    python/run repo.copies --all    says also those that copies.allowed names

Read are the .antt files of proofs/ and specs/. Of a lemma its statement is compared, with the parameters of the
modules around it; of a definition, a record and a type of data all that it says. Every name stands for what it
means where it is used: a definition of this repository for its content, whatever its name, so that equal text over
other types is no copy and text over a copied definition is one; a record, a type of data and what is generated or
imported for itself. Names of bound variables and of premises, how they are grouped, modifiers, comments and layout
don't count.

A line of `.ci/checks/copies.allowed` names all places of a copy that stays (CRATE.NAME each) and says why.
"""

import collections
import gc
import hashlib
import pathlib
import re
import sys
from collections.abc import Iterable

from repo.antt import MODIFIERS, Declaration, File, Line, member_name
from wavescalar.programs import ROOT

ALLOWED = ROOT / ".ci" / "checks" / "copies.allowed"
TOKEN = re.compile(r'"(?:\\.|[^"\\])*"|[(){}\[\],;]|[^\s(){}\[\],;]+')
OPENING, CLOSING = "({[", ")}]"
RELATIONS = {"≡", "<", "≤", "≢", "⊥"}
CONSTRUCTORS = {"zero", "suc", "true", "false", "inl", "inr", "refl", "tt", "[]", "∷"}
SIGNS = {":", "→", "=", "λ", ".", "×", "⊎", "∀", "_", "..", "|", "↦", "⊥"}
WORDS = SIGNS | {"let", "in", "where", "record", "elim", "rw", "at", "if", "then", "else", "Type"}
# Files and names on the way to a meaning.
Seen = tuple[tuple[str, str], ...]
LITERAL = {"=", "codes", "∷", "[]", "+", "-", "*", "^", "++"}


class Item:
    """A declaration: its words behind the name, and of a definition its equations, each from the name on."""

    def __init__(self, module: "Module", name: str, kind: str, line: int, words: list[str], mutual: bool) -> None:
        self.module, self.name, self.kind, self.line = module, name, kind, line
        self.words, self.mutual = words, mutual
        self.equations: list[list[str]] = []

    @property
    def place(self) -> str:
        return f"{self.module.crate}.{self.name}"


# What a name stands for: a declaration and a part of it, or a text.
Meaning = tuple[Item, str] | str


class Module:
    """A file: its declarations, and what the names in it are short for."""

    def __init__(self, path: pathlib.Path) -> None:
        self.path, self.crate = path, path.parts[1]
        self.name = ".".join(["Rattle", *path.with_suffix("").parts[1:]])
        self.every: list[Item] = []
        self.items: dict[str, Item] = {}
        self.constructors: dict[str, str] = {}  # of data that is declared here, and whose they are
        file = File((ROOT / path).read_text())
        self.imports = file.imports
        for it in file.declarations:
            if it.head.kind != "ruleset":
                self.add(it)

    def add(self, it: Declaration) -> None:
        """Takes a declaration, with the parameters of the modules around it."""
        says = [word for word in words_of(it.type) + [word for part in it.members for word in told_in(part)]
                if word not in MODIFIERS or not it.head.kind]
        item = Item(self, it.name, kind_of(it), it.number, words_of(" ".join(it.around)) + says, bool(it.group))
        item.equations = [told_in(equation) for equation in it.equations]
        self.every.append(item)
        self.items[item.name] = item
        if it.head.kind == "data":
            self.constructors.update({member_name(part): it.name for part in it.members})


def words_of(text: str) -> list[str]:
    """The words of a text; the dot behind the variables of a λ is one of them."""
    found: list[str] = []
    for word in TOKEN.findall(text):
        found += (word[:-1], ".") if len(word) > 1 and word.endswith(".") and word != ".." else (word,)
    return found


def told_in(lines: Iterable[Line]) -> list[str]:
    """The words of lines."""
    return words_of(" ".join(line.text for line in lines))


def kind_of(it: Declaration) -> str:
    """The kind of a declaration where its head says that: a record or data, or that it is a definition."""
    return it.head.kind or ("definition" if it.head.modifiers & {"abbrev", "unfoldable"} else "")


def matching(words: list[str], at: int) -> int:
    """Where the bracket that opens at a place closes."""
    depth = 0
    for end in range(at, len(words)):
        depth += (words[end] in OPENING) - (words[end] in CLOSING)
        if depth == 0:
            return end
    return len(words) - 1


def binding(words: list[str], at: int) -> int:
    """Where the colon stands of a group of variables, `(x y : T)`, that opens at a place, or 0."""
    end = at + 1
    while end < len(words) and words[end] not in "({[)}],;:":
        end += 1
    return end if words[at] in "({" and at + 1 < end < len(words) and words[end] == ":" else 0


def bound_in(words: list[str]) -> set[str]:
    """The variables that a text binds."""
    found = set()
    for at, word in enumerate(words):
        if word in "({" and binding(words, at):
            found.update(words[at + 1 : binding(words, at)])
        elif word == "λ":
            found.update(words[at + 1 : words.index(".", at)] if "." in words[at:] else [])
    return found - set("(){}:")


def has_arrow(words: list[str]) -> bool:
    """Whether an arrow stands in no bracket."""
    depth = 0
    for word in words:
        depth += (word in OPENING) - (word in CLOSING)
        if word == "→" and depth == 0:
            return True
    return False


def premise(words: list[str]) -> list[str]:
    """The words of a premise: in brackets only where it has an arrow itself."""
    return ["(", *words, ")", "→"] if has_arrow(words) else [*words, "→"]


def spread(words: list[str]) -> list[str]:
    """The words with a group for each variable of a statement, and premises without names and idle brackets."""
    found, at = [], 0
    while at < len(words):
        colon, end = binding(words, at), matching(words, at) if words[at] in "({" else at
        behind = words[end + 1 : end + 2]
        if colon and behind in ([], ["→"], ["("], ["{"]):
            inside = spread(words[colon + 1 : end])
            named = {word.partition(".")[0] for word in words[end + 1 :]}
            for name in words[at + 1 : colon]:
                found += ["∀", name, ":", *inside, ";"] if name in named else premise(inside)
            at = end + (2 if behind == ["→"] else 1)
        elif words[at] == "(" and behind == ["→"] and found[-1:] in ([], ["→"], [";"], ["("]):
            found += premise(spread(words[at + 1 : end]))
            at = end + 2
        else:
            found.append(words[at])
            at += 1
    return found


class House:
    """All files, what their names mean, and what their declarations say."""

    def __init__(self) -> None:
        paths = [path for part in ("proofs", "specs") for path in (ROOT / "crates").glob(f"*/{part}/**/*.antt")]
        modules = [Module(path.relative_to(ROOT)) for path in sorted(paths)]
        self.modules = {module.name: module for module in modules}
        self.contents: dict[Item, str] = {}
        self.asked: list[Item] = []

    def meaning(self, module: Module, name: str, seen: Seen = ()) -> Meaning | None:
        """What a name stands for in a file: a declaration and which part of it, or a text; None for a variable."""
        if name in module.items:
            return module.items[name], ""
        if name in module.constructors:
            return module.items[module.constructors[name]], name
        for known in (name, f"◌{name}◌"):
            if known in module.imports.names:
                file, other = module.imports.names[known]
                return self.named(file, other, seen)
        return None

    def named(self, file: str, name: str, seen: Seen = ()) -> Meaning:
        """What a name of some file stands for. What is none of this house is itself."""
        module = self.modules.get(file)
        found = self.meaning(module, name, (*seen, (file, name))) if module and (file, name) not in seen else None
        if found:
            return found
        return f"{file}.{name}" if file.partition("Rattle.")[2].partition(".")[0] not in ("", "std", "core") else name

    def known(self, module: Module, word: str) -> tuple[Meaning | None, str]:
        """What a word means, and the fields behind it."""
        if word in WORDS or word[0] == '"' or re.fullmatch(r"[\d.]+", word):
            return word, ""
        found = self.meaning(module, word)
        head, dot, rest = word.partition(".")
        if found or not dot:
            return found, ""
        if head == "Rattle":
            file, _, name = word.rpartition(".")
            return self.named(file, name), ""
        if head in module.imports.files:
            name, dot, rest = rest.partition(".")
            return self.named(module.imports.files[head], name), dot + rest
        return self.meaning(module, head), dot + rest

    def told(self, found: Meaning, item: Item) -> str:
        """A text for what a name stands for, in the text of a declaration."""
        if isinstance(found, str):
            return found
        of, part = found
        if of is item:
            return f"itself {part}"
        if self.is_lemma(of):
            return f"{of.module.name}.{of.name}"
        return f"{of.name if of.mutual or of in self.asked else self.content(of)} {part}"

    def text(self, item: Item, words: list[str], variables: dict[str, int], pattern: int = 0) -> str:
        """Words with what they mean. What means nothing is a variable, and gets a number; so is a pattern's name."""
        bound, found, open_ = bound_in(words), [], []
        for at, word in enumerate(words):
            if word in OPENING:
                open_.append(word)
            elif word in CLOSING and open_:
                open_.pop()
            head, dot, rest = word.partition(".")
            if word in OPENING + CLOSING + ",;" or open_[-1:] == ["{"] and words[at + 1 : at + 2] == ["="]:
                found.append(word)
                continue
            known = head not in bound and head not in variables
            means, behind = self.known(item.module, word) if known else (None, "")
            made = word in CONSTRUCTORS | WORDS or word[0].isupper() or word.isdigit()
            if at < pattern and not made and not (isinstance(means, tuple) and means[1]):
                means = None
            if means:
                found.append(self.told(means, item) + behind)
            else:
                variables.setdefault(head, len(variables))
                found.append(f"v{variables[head]}{dot}{rest}")
        return " ".join(found)

    def is_lemma(self, item: Item) -> bool:
        """Whether a declaration says a fact: what it gives speaks of its variables, or is a relation."""
        if not item.kind:
            words, depth, last, types = item.words, 0, 0, set()
            for at, word in enumerate(words):
                depth += (word in OPENING) - (word in CLOSING)
                last = at + 1 if word == "→" and depth == 0 else last
                colon = binding(words, at)
                if colon and word == "{" and words[colon + 1 : colon + 2] == ["Type"]:
                    types.update(words[at + 1 : colon])
            result, speaks = words[last:], RELATIONS | bound_in(words) - types
            spoken = {word.partition(".")[0] for word in result} | set(result)
            item.kind = "lemma" if result[:1] != ["Type"] and spoken & speaks else "definition"
        return item.kind == "lemma"

    def content(self, item: Item) -> str:
        """A text that two declarations have in common where they say the same."""
        if item not in self.contents:
            self.asked.append(item)
            variables: dict[str, int] = {}
            says = [self.text(item, spread(item.words), variables)]
            if self.is_lemma(item):
                says.append("lemma")
            elif item.kind in ("record", "data"):
                says.append(f"{item.kind} {item.name}")
            else:
                says += [self.text(item, it, {}, it.index("=") if "=" in it else 0) for it in item.equations]
            self.asked.pop()
            self.contents[item] = hashlib.sha256("\n".join(says).encode()).hexdigest()[:16]
        return self.contents[item]

    def counts(self, item: Item) -> bool:
        """A goal's answer says what the goal says, and two definitions that are one number or one text may mean two
        things."""
        if item.words[:1] and item.words[0].startswith("goal."):
            return False
        words = [word for equation in item.equations for word in equation[1:]]
        value = words[:1] == ["="] and all(word[0].isdigit() or word[0] == '"' or word in LITERAL for word in words)
        return self.is_lemma(item) or not value

    def copies(self) -> list[list[Item]]:
        """What stands in more than one crate."""
        found = collections.defaultdict(list)
        for module in self.modules.values():
            for item in module.every:
                if self.counts(item):
                    found[self.content(item)].append(item)
        return [items for items in found.values() if len({item.module.crate for item in items}) > 1]


def main() -> int:
    lines = [line.partition(":") for line in ALLOWED.read_text().splitlines() if line.strip()]
    allowed = {frozenset(places.split()) for places, _, why in lines if why.strip()}
    house = House()
    copies = {frozenset(item.place for item in items): items for items in house.copies()}
    told = [items for places, items in copies.items() if places not in allowed or "--all" in sys.argv]
    for items in told:
        print("\n    ".join(f"{item.module.path}:{item.line}: {item.name}" for item in items))
    for places in allowed - set(copies):
        print(f"{ALLOWED.name}: no copy stands in {' '.join(sorted(places))} alone")
    print(f"{sum(len(module.every) for module in house.modules.values())} statements, {len(told)} in two crates")
    return 1 if told or allowed - set(copies) else 0


if __name__ == "__main__":
    gc.disable()
    sys.setrecursionlimit(10000)
    sys.exit(main())
