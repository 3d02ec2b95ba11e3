"""Five crates of the toolchain stand in their places.

    python/run repo.crates           says where one is gone, or is used in a place that isn't listed
    python/run repo.crates --list    says of each place what it is for, too

A place is a crate of this repository. The line of crates.txt for it names the toolchain's crate, and the code of its
src/, comments left out, has each of the words that show what that one is used for there. No other line of crates.txt
names one of the five. Of what is counted the unit is a crate of the toolchain.
"""

import sys
from typing import NamedTuple

from repo import antt
from wavescalar.programs import ROOT



class Place(NamedTuple):
    """A crate of the toolchain, the crate of the repository that uses it, what for, and the words that show it."""

    crate: str
    user: str
    purpose: str
    words: tuple[str, ...]


PLACES = (
    Place("clap", "wsc_words", "command words", ("use clap::", "clap::Command::new(")),
    Place("clap", "stream_top", "command words of wss", ("use clap::",)),
    Place("crossbeam_deque", "ready_pool", "stealing", ("use crossbeam_deque::", "Stealer<", "Steal::Success(")),
    Place("crossbeam_utils", "match_table", "padding of locks", ("use crossbeam_utils::", "CachePadded<Mutex<")),
    Place("crossbeam_utils", "multi_wave", "padding of locks", ("use crossbeam_utils::", "CachePadded<")),
    Place("slab", "match_table", "pages of entries", ("use slab::", "Slab<Page>")),
    Place("smallvec", "df_core", "short lists of tokens", ("use smallvec::", ": SmallVec<")),
    Place("smallvec", "store_buf", "short lists of tokens", ("use smallvec::", "= SmallVec<")),
    Place("smallvec", "part_store", "short lists of tokens", ("ghost use Rattle.smallvec.", "&mut PlainTokens")),
)


def code(crate: str) -> str:
    """The lines of a crate's src/ that aren't comments."""
    texts = (path.read_text() for path in sorted((ROOT / "crates" / crate / "src").glob("**/*.rt")))
    return "\n".join(line for text in texts for line in text.splitlines() if not line.lstrip().startswith("//"))


def faults(place: Place, lines: dict[str, set[str]]) -> list[str]:
    """What is wrong at a place, in words."""
    found = []
    if place.crate not in lines.get(place.user, set()):
        found.append(f"crates.txt doesn't name it for {place.user}")
    text = code(place.user)
    found += [f"crates/{place.user}/src has no `{word}`" for word in place.words if word not in text]
    return found


def main() -> int:
    lines = {crate: set(named) for crate, named in antt.crates().items()}
    wrong: set[str] = set()
    for place in PLACES:
        here = faults(place, lines)
        if here:
            wrong.add(place.crate)
        if here or "--list" in sys.argv:
            print(f"{place.crate} for {place.purpose} in {place.user}: {'; '.join(here) or 'there'}")
    crates = {place.crate for place in PLACES}
    told = {(place.user, place.crate) for place in PLACES}
    for user in lines:
        for crate in sorted(lines[user] & crates):
            if (user, crate) not in told:
                wrong.add(crate)
                print(f"{crate}: crates.txt names it for {user} too, which isn't told of as its place")
    print(f"crates: {len(crates)} named, {len(wrong)} wrong")
    return 1 if wrong else 0


if __name__ == "__main__":
    sys.exit(main())
