"""What is refused: one line with the C line, the reason and the instruction."""

from __future__ import annotations

from collections.abc import Callable
from pathlib import Path

import pytest

from wavescalar.c import Refusal, compile_c

CASES = {
    "floating point (x86_fp80)": (3, """int main(void) {
long double x = (long double)ws_read();
ws_print((unsigned long)(x * 1.5)); }"""),
    "path is recursive, and has a local array of 40000 bytes": (2, """static int path(int n) {
int seen[10000]; seen[n & 3] = n;
return n ? path(n - 1) + seen[ws_read()] : seen[0]; }
int main(void) { ws_print((unsigned long)path((int)ws_read())); }"""),
    "a call by a pointer to no function that is known here": (4, """static unsigned long (*volatile called)(unsigned long);
int main(void) {
ws_print(called(5)); }"""),
    "a variable number of arguments, and one of them of 16 bytes": (6, """#include <stdarg.h>
static long sum(int n, ...) {
  va_list l; long s = 0; va_start(l, n); while (n--) s += (long)va_arg(l, __int128); va_end(l); return s; }
int main(void) {
ws_print((unsigned long)sum(2, (__int128)1, (__int128)2)); }"""),
    "a pointer to no array that is known here": (3, """int main(void) {
unsigned long *p = (unsigned long *)ws_read();
*p = 3; }"""),
    "a call of system": (4, """int system(const char *);
int main(void) {
system("a"); }"""),
    "a vector of the type <4 x i32>": (5, """typedef unsigned v4 __attribute__((vector_size(16)));
static v4 a;
int main(void) {
a[ws_read() & 3] += 5; v4 b = a + a; ws_print(b[ws_read() & 1]); }"""),
    "a would take 100000 cells": (2, """static int a[100000];
int main(void) { a[ws_read()] = 1; ws_print(a[ws_read()]); }"""),
    "an integer of 128 bits": (3, """int main(void) {
unsigned __int128 x = (unsigned __int128)ws_read() << 64 | 5; ws_print((unsigned long)__builtin_add_overflow(x, x, &x)); }"""),
    "an array whose length isn't known": (4, """int main(void) {
unsigned long n = ws_read();
int a[n]; for (unsigned long i = 0; i < n; i++) a[i] = (int)i; ws_print((unsigned long)a[ws_read()]); }"""),
    "inline assembly": (3, """int main(void) {
unsigned long x = ws_read(); __asm__("incq %0" : "+r"(x)); ws_print(x); }"""),
}


@pytest.mark.parametrize("reason", CASES)
def test_refused_at_its_line(reason: str, source: Callable[..., Path]) -> None:
    line, text = CASES[reason]
    with pytest.raises(Refusal) as found:
        compile_c(source(text), 1, ["-w"])
    refusal = found.value
    assert refusal.reason.startswith(reason)
    assert refusal.place is not None and refusal.place.line == line
    assert str(refusal).startswith(f"{refusal.place.file}:{line}: refused: {reason}") and "\n" not in str(refusal)


def test_a_program_has_a_main(source: Callable[..., Path]) -> None:
    with pytest.raises(Refusal, match="there is no function main"):
        compile_c(source("int f(void) { return 1; }"))


def test_recursion_at_the_end_is_a_loop(source: Callable[..., Path]) -> None:
    text = """static int gcd(int a, int b) { return b ? gcd(b, a % b) : a; }
int main(void) { ws_print(gcd(12, ws_read())); }"""
    for level in (0, 1, 2):
        assert compile_c(source(text), level).blocks
