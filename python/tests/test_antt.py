"""What the checks read of crates.txt and of files."""

import pytest

from repo.antt import (NO_DECLARATION, Declaration, File, Head, Imports, Line, Use, blocks, crates, head_of, joined, lines_of,
                       member_name, stands_on, use_of)
from wavescalar.programs import ROOT

CRATES = "low: std slab\nmiddle: low\n\n# a comment\nhigh: middle low clap # and another\nalone:\n"


def test_crates() -> None:
    named = crates(CRATES)
    assert list(named) == ["low", "middle", "high", "alone"]
    assert named["high"] == ["middle", "low", "clap"]
    assert stands_on(named) == {"low": set(), "middle": {"low"}, "high": {"low", "middle"}, "alone": set()}


def test_own_crates() -> None:
    """That of the repository has each folder of crates/, and no cycle."""
    named = crates()
    assert "wsc_top" in named and all(crate not in under for crate, under in stands_on(named).items())


@pytest.mark.parametrize("line, wanted", (
    ("use Rattle.std.specs.List", Use("Rattle.std.specs.List", "List", {})),
    ("pub use Rattle.a.specs.B as C", Use("Rattle.a.specs.B", "C", {})),
    ("  use Rattle.a.specs.B.{x, y as z}", Use("Rattle.a.specs.B", "", {"x": "x", "z": "y"})),
    ("ghost use Rattle.a.specs.B.{◌+◌, p'};", Use("Rattle.a.specs.B", "", {"◌+◌": "◌+◌", "p'": "p'"})),
    ("use Rattle.a.proofs.f.+most.Answers as A", Use("Rattle.a.proofs.f.+most.Answers", "A", {})),
    ("used : ℕ", None), ("  use_it = 3", None),
))
def test_use(line: str, wanted: Use) -> None:
    assert use_of(line) == wanted


def test_lines() -> None:
    text = "-- a head\nuse A.{b,\n  c}\n\n  d : e -- why\n  f--g = h\n"
    assert list(lines_of(text)) == [Line(2, 0, "use A.{b,"), Line(3, 2, "c}"), Line(5, 2, "d : e"), Line(6, 2, "f--g = h")]
    assert [line for _, line in joined(text)][1] == "use A.{b,c}"


@pytest.mark.parametrize("line, wanted", (
    ("sum : List ℕ → ℕ", Head(frozenset(), "", "sum", True, " List ℕ → ℕ")),
    ("sum [] = 0", Head(frozenset(), "", "sum", False, " [] = 0")),
    ("pub unfoldable Rests : Run → Type", Head(frozenset({"pub", "unfoldable"}), "", "Rests", True, " Run → Type")),
    ("pub record Run where", Head(frozenset({"pub"}), "record", "Run", False, " where")),
    ("data Ending : Type where", Head(frozenset(), "data", "Ending", True, " Type where")),
    ("abbrev mutual", Head(frozenset({"abbrev"}), "mutual", "", False, "")),
    ("module (n : ℕ) where", Head(frozenset(), "module", "", False, " (n : ℕ) where")),
    ("records : ℕ", Head(frozenset(), "", "records", True, " ℕ")),
    ("published :", Head(frozenset(), "", "published", True, "")),
))
def test_head(line: str, wanted: Head) -> None:
    assert head_of(line) == wanted
    assert head_of(line).is_marked == bool(wanted.modifiers or wanted.kind)


def test_imports() -> None:
    imports = Imports()
    lines = ["use Rattle.a.specs.B", "use Rattle.a.specs.C as D", "ghost use Rattle.a.specs.E.{x, y as z};", "x : ℕ"]
    assert [imports.take(line) for line in lines] == [True, True, True, False]
    assert imports.files == {"B": "Rattle.a.specs.B", "D": "Rattle.a.specs.C"}
    assert imports.names == {"x": ("Rattle.a.specs.E", "x"), "z": ("Rattle.a.specs.E", "y")}


THEORY = """-- a head
use Rattle.a.specs.B.{x,
  y as z}
pub mod C

--
-- a definition by equations
abbrev pub sum : List ℕ
    → ℕ
unfolding other more
sum [] = 0   -- nothing
sum (x ∷ xs) =
    x + sum xs

pub record Run (image : Image)
    (words : List ℕ) : Type 0 where
  pub ends : Ending
  pub halts : (n : ℕ)
    → ends ≡ n
pub data Ending : Type 0
  where
    Whole : Ending
    Spent : (left : ℕ) → Ending
    deriving IsSet as Ending-set
ruleset rules = (sum, x)

module _ {J : Type 0}
    (n : ℕ) where
  first : Same n
  first = refl
  module inner (m : ℕ) where
    deep : Same m
    deep = go
      where
        go : Same m
        go = refl

infixl 10 f
abbrev mutual
  unfolding f
  f : ℕ → ℕ
  f zero = 0
  pub g : ℕ → ℕ
  g x = f x
last : ℕ
last = 3
"""


def declared() -> dict[str, Declaration]:
    return {it.name: it for it in File(THEORY).declarations}


def texts(parts: list[list[Line]]) -> list[list[str]]:
    return [[line.text for line in part] for part in parts]


def test_file() -> None:
    file = File(THEORY)
    assert file.imports.names == {"x": ("Rattle.a.specs.B", "x"), "z": ("Rattle.a.specs.B", "y")}
    assert [(it.name, it.head.kind, it.number) for it in file.declarations] == [
        ("sum", "", 8), ("Run", "record", 15), ("Ending", "data", 20), ("rules", "ruleset", 25), ("first", "", 29),
        ("deep", "", 32), ("f", "", 41), ("g", "", 43), ("last", "", 45)]


def test_equations() -> None:
    it = declared()["sum"]
    assert it.type == "List ℕ → ℕ" and it.head.modifiers == {"abbrev", "pub"}
    assert texts(it.equations) == [["sum [] = 0"], ["sum (x ∷ xs) =", "x + sum xs"]]
    assert [line.text for line in it.unfolds] == ["unfolding other more"]
    assert [line.number for line in it.body] == [10, 11, 12, 13]
    assert texts(declared()["deep"].equations) == [["deep = go", "where", "go : Same m", "go = refl"]]


def test_members() -> None:
    run, ending = declared()["Run"], declared()["Ending"]
    assert run.type == "(image : Image) (words : List ℕ) : Type 0 where"
    assert [member_name(it) for it in run.members] == ["ends", "halts"]
    assert texts(run.members)[1] == ["pub halts : (n : ℕ)", "→ ends ≡ n"]
    assert (ending.type, [member_name(it) for it in ending.members]) == ("Type 0 where", ["Whole", "Spent"])
    assert [line.text for line in ending.derives] == ["deriving IsSet as Ending-set"]
    assert ending.equations == []
    assert declared()["rules"].type == "= (sum, x)"


def test_modules() -> None:
    its = declared()
    assert its["first"].around == ("{J : Type 0} (n : ℕ)",)
    assert its["deep"].around == ("{J : Type 0} (n : ℕ)", "(m : ℕ)")
    assert its["last"].around == () and not its["last"].group


def test_mutual() -> None:
    its = declared()
    f, g = its["f"], its["g"]
    assert f.group is g.group and f.group[0].text == "abbrev mutual"
    assert [line.number for line in f.group] == [39, 40, 41, 42, 43, 44]
    assert [line.text for line in f.unfolds] == ["unfolding f"] and not g.unfolds
    assert (f.head.is_marked, g.head.is_marked) == (False, True)


def test_blocks() -> None:
    lines = list(lines_of("  a (\n    b\n  )\n  c\n"))
    assert texts(blocks(lines)) == [["a (", "b", ")"], ["c"]]
    assert blocks([]) == []


def test_own_files() -> None:
    """Each line of a file of this repository is an import, or belongs to a declaration."""
    for path in (ROOT / "crates").glob("*/specs/**/*.antt"):
        text = path.read_text()
        seen = {line.number for it in File(text).declarations for line in (*it.statement, *it.body, *it.group)}
        heads = ("use ", "pub use ", "module ", *NO_DECLARATION)
        left = [block for block in blocks(lines_of(text)) if not block[0].text.startswith(heads)]
        assert [line for block in left for line in block if line.number not in seen] == [], path
