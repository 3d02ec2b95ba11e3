"""No chain of crates, each of which stands on the next, is longer than eight.

    python/run repo.chains            says how long the longest is, and which crates stand in it
    python/run repo.chains --table    says it of each crate too

crates.txt says what a crate stands on; crates of the toolchain don't count.
"""

import functools
import sys

from repo.antt import crates

MOST = 8


def main() -> int:
    named = crates()
    below = {name: [it for it in names if it in named] for name, names in named.items()}

    @functools.cache
    def chain(name: str) -> tuple[str, ...]:
        """The longest chain that ends in a crate, from the lowest one up."""
        return (*max((chain(it) for it in below[name]), key=len, default=()), name)

    if sys.argv[1:] == ["--table"]:
        print("| Crate | Chain | Stands on |\n|---|---|---|")
        for name in sorted(below, key=lambda it: (len(chain(it)), it)):
            print(f"| {name} | {len(chain(name))} | {' '.join(below[name])} |")
    longest = max(map(chain, below), key=len)
    print(f"{len(below)} crates, {len(longest)} in the longest chain: {' '.join(longest)}")
    return 1 if len(longest) > MOST else 0


if __name__ == "__main__":
    sys.exit(main())
