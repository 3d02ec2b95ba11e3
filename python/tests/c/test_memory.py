"""Congruences of offsets, and how bytes become cells."""

from __future__ import annotations

from math import gcd
from pathlib import Path

import pytest

from wavescalar.c.cells import Layout, cuts, overlap
from wavescalar.c.clang import Clang
from wavescalar.c.copies import memory
from wavescalar.c.objects import joined, moved
from wavescalar.c.reader import read

SPAN = range(-40, 41)


def members(place: tuple[int, int]) -> set[int]:
    """The offsets of a congruence near 0."""
    return {at for at in SPAN if (at - place[1]) % place[0] == 0} if place[0] else {place[1]}


PLACES = [(0, 0), (0, 5), (0, -8), (4, 0), (4, 2), (6, 3), (16, 8)]


@pytest.mark.parametrize("one", PLACES)
@pytest.mark.parametrize("other", PLACES)
def test_join_holds_both(one: tuple[int, int], other: tuple[int, int]) -> None:
    both = joined(one, other)
    assert both is not None
    assert members(one) | members(other) <= members(both)
    assert both[0] == gcd(one[0], other[0], one[1] - other[1])


@pytest.mark.parametrize("place", PLACES)
def test_moved_holds_all(place: tuple[int, int]) -> None:
    found = moved(place, 3, 10)
    assert found is not None
    assert {at + 3 + 10 * k for at in members(place) for k in (-1, 0, 1)} & set(SPAN) <= members(found)


ACCESSES = [(*place, size) for place in PLACES for size in (1, 2, 4, 8)]


@pytest.mark.parametrize("one", ACCESSES)
def test_overlap_is_that_of_bytes(one: tuple[int, int, int]) -> None:
    for other in ACCESSES:
        wanted = any(
            set(range(a, a + one[2])) & set(range(b, b + other[2])) and (a, one[2]) != (b, other[2])
            for a in members(one[:2]) for b in members(other[:2]))
        assert overlap(one, other) == wanted, other


@pytest.mark.parametrize("access", ACCESSES)
def test_cut_is_inside(access: tuple[int, int, int]) -> None:
    for bound in PLACES:
        assert cuts(bound, access) == any(a < b < a + access[2] for a in members(access[:2]) for b in members(bound))


def layouts(text: str, tmp_path: Path) -> dict[str, Layout]:
    """The layouts of a program, by the names of the objects."""
    file = tmp_path / "test.c"
    file.write_text(f'#include <stdint.h>\n#include <string.h>\n#include "wavescalar.h"\n{text}')
    found = memory(read(Clang.found().ir(file, 1, ["-w"]), str(file)))
    return {thing.name: layout for layout in found.of.values() for thing in layout.region.objects}


def test_bytes_are_cells(tmp_path: Path) -> None:
    found = layouts("""static uint8_t a[10] = {7, 0, 9};
        int main(void) { a[ws_read() % 10]++; ws_print(a[ws_read() % 10]); }""", tmp_path)["a"]
    assert (found.granule, found.whole, found.cells, found.start) == (1, True, 10, {0: 7, 2: 9})


def test_struct_fields_are_whole_cells(tmp_path: Path) -> None:
    found = layouts("""static struct { uint64_t k; uint32_t v; uint16_t f; } a[4] = {{1, 2, 3}};
        int main(void) { unsigned long i = ws_read() % 4; a[i].k++, a[i].v++, a[i].f++;
        i = ws_read() % 4; ws_print(a[i].k + a[i].v + a[i].f); }""", tmp_path)["a"]
    assert (found.granule, found.whole, found.start) == (4, True, {0: 1, 2: 2, 3: 3})


def test_words_over_bytes_are_split(tmp_path: Path) -> None:
    found = layouts("""static uint8_t a[16] = {1, 2, 3, 4};
        int main(void) { uint32_t x; a[ws_read() % 16]++; memcpy(&x, a + ws_read() % 12, 4); ws_print(x); }""",
                    tmp_path)["a"]
    assert (found.granule, found.whole) == (1, False)


def test_words_at_multiples_are_whole(tmp_path: Path) -> None:
    found = layouts("""static uint8_t a[64];
        int main(void) { for (int i = 0; i < 16; i++) { uint32_t x = (uint32_t)ws_read(); memcpy(a + 4 * i, &x, 4); }
        uint32_t y; memcpy(&y, a + 4 * (ws_read() % 16), 4); ws_print(y); }""", tmp_path)["a"]
    assert (found.granule, found.whole) == (1, True)  # one access in each fourth cell


def test_struct_copies_keep_cells_whole(tmp_path: Path) -> None:
    found = layouts("""static struct { int32_t k, v; } a[8];
        int main(void) { unsigned long i = ws_read() % 8, j = ws_read() % 8; a[i].k++, a[i].v++; a[j] = a[i];
        ws_print((uint32_t)a[ws_read() % 8].k); }""", tmp_path)["a"]
    assert (found.granule, found.whole) == (4, True)


def test_pointers_in_memory_join_objects(tmp_path: Path) -> None:
    found = layouts("""static const char *const names[] = {"ab", "cde"};
        int main(void) { const char *s = names[ws_read() & 1]; unsigned long n = 0; while (*s++) n++; ws_print(n); }""",
                    tmp_path)
    strings = [layout for name, layout in found.items() if name.startswith(".str")]
    assert len(strings) == 2 and strings[0] is strings[1]
    assert sorted(found["names"].start.values()) == [16, 32]  # null takes the first 16 bytes
