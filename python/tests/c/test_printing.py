"""What `printf` prints, and `sprintf` makes: natively and on the machine the same text, and words without it."""

from __future__ import annotations

from collections.abc import Callable, Sequence
from pathlib import Path

import pytest

from tests.c.compare import native_text
from wavescalar import link, run
from wavescalar.c import Refusal, compile_c
from wavescalar.c.printing import Part, parts

HEAD = "#include <stdio.h>\n"
SHOWN = {
    "streams": ([4], r"""int main(void) {
  int n = (int)ws_read();
  fprintf(stdout, "%d\n", n), fprintf(stderr, "%d\n", n), fprintf(stdout, "text\n");
  fputs("end", stdout), fputs("hidden", stderr), fputc('x', stdout), putc('\n', stdout), fflush(stdout);
  if (n == 4) fwrite("abcdef", 2, 2, stdout);
}"""),
    "numbers": ([3], r"""int main(void) {
  int n = (int)ws_read();
  printf("n = %d, %5d|%-5d|%05d|%+d|% d|%.3d|%8.3d|%-8.3i|\n", n, n, n, n, n, n, n, -n, n);
  printf("%d %d %ld %lld %hhd %hd\n", -n, 0, -5l * n, (long long)n << 40, 300 + n, 70000 + n);
  printf("%u %lu %hhu %hu %zu\n", 7u - 9u - (unsigned)n, 1ul << 63, 300 + n, 70000 + n, sizeof n);
}"""),
    "bases": ([200], r"""int main(void) {
  unsigned n = (unsigned)ws_read();
  printf("%x %X %#x %#X %o %#o %#x %#o\n", n, n, n, n, n, n, n - 200, n - 200);
  printf("%08x|%-8x|%#8x|%#08x|%.6x|%#.6x|%#05o|%.0x|%#.0o|\n", n, n, n, n, n, n, n / 25, n - 200, n - 200);
}"""),
    "strings": ([1, 5], r"""int main(void) {
  char name[4] = "ab";
  name[1] += (char)(ws_read() & 1);
  int width = (int)ws_read();
  printf("[%s] [%5s] [%-5s] [%.1s] [%.0s] [%4.1s]\n", name, name, name, name, name, name);
  printf("[%*d] [%-*d] [%*s] [%.*d] [%*d]\n", width, 7, width, 7, width, name, width, 7, -width, 7);
  printf("%c%c|%3c|%-3c|%%\n", name[0], 'a' + width, '!', '?');
  puts(name), putchar('x'), putchar('\n');
  ws_print(77);
}"""),
    "made": ([6], r"""int main(void) {
  int n = (int)ws_read();
  char line[64], small[8];
  int got = sprintf(line, "n = %d, %5x|%-4c|%s", n, n, 'a' + n, "end");
  printf("%s %d\n", line, got);
  got = snprintf(small, sizeof small, "%08d and %u", n, 7u);
  printf("[%s] %d %d\n", small, got, snprintf(0, 0, "%*s", n, "ab"));
  for (int k = 0, at = 0; k < n; k++) at += sprintf(line + at, "%d,", k * k);
  puts(line), printf("%d\n", snprintf(small, 1, "%d", n) + small[0]);
}"""),
}


@pytest.mark.parametrize("name", SHOWN)
def test_text_is_that_of_a_native_run(name: str, source: Callable[..., Path]) -> None:
    given, text = SHOWN[name]
    file = source(HEAD + text)
    done = run(link(compile_c(file, 1, ["-w"], as_text=True)), given)
    assert (bytes(done.words).decode(), done.ending) == (native_text(file, given), "halt")


def words_of(file: Path, given: Sequence[int]) -> list[int]:
    """What a program prints as words."""
    return list(run(link(compile_c(file, 1, ["-w"])), given).words)


def test_words_have_no_text_between(source: Callable[..., Path]) -> None:
    file = source(HEAD + r"""int main(void) {
  int n = (int)ws_read();
  printf("n is %5d, %x; %c%s\n", -n, n, 'a', "bc");
}""")
    assert words_of(file, [10]) == [2**64 - 10, 10, ord("a"), ord("b"), ord("c")]


def test_strings_are_text_where_words_are_printed(source: Callable[..., Path]) -> None:
    file = source(HEAD + r"""int main(void) {
  char line[16];
  int n = (int)ws_read(), count = sprintf(line, "%03d!", n);
  printf("%d %s", count, line);
}""")
    assert words_of(file, [5]) == [4, *b"005!"]


REFUSED = {
    "fprintf to another stream than stdout and stderr": 'fprintf(ws_read() ? stdout : stderr, "%d", (int)ws_read());',
    "the result of printf is used": 'return printf("%d", (int)ws_read());',
    "the format of printf isn't constant": 'char f[3] = "%d"; f[1] += (char)ws_read(); printf(f, 3);',
    "the format of sprintf isn't constant": 'char f[3] = "%d", t[9]; f[1] += (char)ws_read(); sprintf(t, f, 3);',
    "%f in a format of snprintf": 'char t[9]; snprintf(t, 9, "%f", 1.5 + (int)ws_read());',
    "%f in a format of printf": 'printf("%d %f", (int)ws_read(), 1.5);',
    "printf has fewer arguments than its format takes": 'printf("%d %d", (int)ws_read());',
}


@pytest.mark.parametrize("reason", REFUSED)
def test_refused(reason: str, source: Callable[..., Path]) -> None:
    with pytest.raises(Refusal) as found:
        compile_c(source(f"{HEAD}int main(void) {{\n{REFUSED[reason]} }}"), 1, ["-w"])
    assert found.value.reason == reason
    assert found.value.place is not None and found.value.place.line == 4


def test_parts_of_a_format() -> None:
    assert list(parts(b"a%%b%-05.3hhx%*.*ld%.s")) == [
        Part(b"a"), Part(b"%"), Part(b"b"), Part(b"", b"x", 1 + 16, 5, 3, 8), Part(b"", b"d", 0, None, None, 64),
        Part(b"", b"s", 0, 0, 0, 32)]
    for form in (b"%", b"%q", b"%5"):
        with pytest.raises(ValueError):
            list(parts(form))
