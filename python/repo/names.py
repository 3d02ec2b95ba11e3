"""The name of a definition or of a type has one meaning in a crate and in all that it stands on.

    python/run repo.names          says which names have two
    python/run repo.names --all    says also those that names.allowed names

Read are the definitions of specs/ that begin with a capital letter, and the types and traits of src/; of a crate of
tests those alone that others can name. In one crate a type of Rust may have the name of the plain thing that it
shows.

A line of `.ci/checks/names.allowed` gives a name, the crates that may share it, and why: the one thing that
it means in all of them.
"""

import collections
import re
import sys
from collections.abc import Iterator

from repo.antt import File, crates, stands_on
from wavescalar.programs import ROOT

ALLOWED = ROOT / ".ci" / "checks" / "names.allowed"
CAPITAL = re.compile(r"[A-Z]\w*")
TYPE = re.compile(r"\s*(?:pub(?:\(\w+\))?\s+)?(?:struct|enum|trait|type)\s+([A-Z]\w*)")


def names_of(crate: str) -> Iterator[tuple[str, str, bool]]:
    """Each name that a crate defines: where, and whether it is a type of Rust."""
    base = ROOT / "crates" / crate
    for path in sorted(base.glob("specs/**/*.antt")):
        for it in File(path.read_text()).declarations:
            name = CAPITAL.match(it.name)
            if name and it.head.is_marked:
                yield name[0], f"{path.relative_to(ROOT)}:{it.number}", False
    for path in sorted(base.glob("src/**/*.rt")):
        for number, line in enumerate(path.read_text().splitlines(), 1):
            name = TYPE.match(line)
            if name and not (crate.endswith("_tests") and "pub " not in line):
                yield name[1], f"{path.relative_to(ROOT)}:{number}", True


def shared(found: list[tuple[str, str, bool]], under: dict[str, set[str]]) -> list[tuple[str, str]]:
    """The places of a name that has two meanings among crates of which one stands on the other."""
    clash = set()
    for at, (crate, place, is_type) in enumerate(found):
        for other, behind, also in found[at + 1 :]:
            if crate == other and is_type == also or other in under[crate] or crate in under[other]:
                clash |= {(crate, place), (other, behind)}
    return sorted(clash)


def allowed() -> dict[str, set[str]]:
    """The crates that may share a name."""
    found = {}
    for line in ALLOWED.read_text().splitlines():
        words, colon, why = line.partition(":")
        if colon and why.strip() and not line.startswith("#"):
            name, *crates = words.split()
            found[name] = set(crates)
    return found


def main() -> int:
    named = crates()
    under = stands_on(named)
    places = collections.defaultdict(list)
    for crate in named:
        for name, place, is_type in names_of(crate):
            places[name].append((crate, place, is_type))
    may, wrong, kept = allowed(), 0, 0
    for name in sorted(places):
        clash = shared(places[name], under)
        if not clash:
            continue
        fine = {crate for crate, _ in clash} == may.get(name)
        kept, wrong = kept + fine, wrong + (not fine)
        if not fine or "--all" in sys.argv:
            print(f"{name}: {'allowed' if fine else 'two meanings?'} {', '.join(place for _, place in clash)}")
    idle = [name for name in may if not shared(places.get(name, []), under)]
    for name in idle:
        print(f"{name}: names.allowed names it, and it stands once")
    print(f"names: {kept} are shared and mean one thing, {wrong + len(idle)} wrong")
    return 1 if wrong or idle else 0


if __name__ == "__main__":
    sys.exit(main())
