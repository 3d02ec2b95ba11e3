"""The command: its options, its statuses, and what goes where."""

from __future__ import annotations

import re
import subprocess
import sys
from pathlib import Path

import pytest

from wavescalar.c.clang import HEADERS
from wavescalar.programs import ROOT

WSCC = ROOT / "python" / "wscc"
ECHO = '#include "wavescalar.h"\nint main(void) { ws_print(ws_read() + ADD); return 3; }\n'


def call(*words: object, cwd: Path) -> tuple[int, str, str]:
    """The status of the command, its output, and what it says on standard error."""
    done = subprocess.run([sys.executable, str(WSCC), *map(str, words)], capture_output=True, text=True, cwd=cwd,
                          errors="replace", check=False, timeout=900)
    return done.returncode, done.stdout, done.stderr


def test_run(tmp_path: Path) -> None:
    (tmp_path / "a.c").write_text(ECHO)
    (tmp_path / "words").write_text("40 ")
    line = ("a.c", "-DADD=2", "-O2", "--run", "--workers", "2", "--input", "words")
    assert call(*line, cwd=tmp_path) == (0, "42\nhalt\n", "")
    assert call(*line, "--result", cwd=tmp_path) == (0, "42\n3\nhalt\n", "")
    assert call(*line, "--budget", "1", cwd=tmp_path)[:2] == (3, "budget\n")


def test_output(tmp_path: Path) -> None:
    (tmp_path / "a.c").write_text(ECHO)
    assert call("a.c", "-D", "ADD=0", "-o", "a.asm", cwd=tmp_path) == (0, "", "")
    assert (tmp_path / "a.asm").read_text().startswith("wavescalar 2\n")
    assert "define" in call("a.c", "-DADD=0", "--emit-llvm", cwd=tmp_path)[1]
    assert "<?, 0, ?>.0" in call("a.c", "-DADD=0", "--draft", cwd=tmp_path)[1]


def test_folders(tmp_path: Path) -> None:
    (tmp_path / "more").mkdir()
    (tmp_path / "more" / "add.h").write_text("#define ADD 5\n")
    (tmp_path / "a.c").write_text('#include "add.h"\n' + ECHO)
    assert call("a.c", "-Imore", "--run", cwd=tmp_path)[:2] == (0, "5\nhalt\n")


def test_statuses(tmp_path: Path) -> None:
    (tmp_path / "bad.c").write_text("int main(void) { return x; }\n")
    (tmp_path / "float.c").write_text('#include "wavescalar.h"\nint main(void) {\nws_print(ws_read() * 1.5L); }\n')
    (tmp_path / "a.c").write_text(ECHO)
    assert call(cwd=tmp_path)[0] == 1
    assert call("a.c", "-O7", cwd=tmp_path)[0] == 1
    assert call("missing.c", cwd=tmp_path)[0] == 4
    assert call("a.c", "-DADD=1", "-o", "nowhere/a.asm", cwd=tmp_path)[0] == 5
    status, out, said = call("bad.c", cwd=tmp_path)
    assert status == 2 and out == "" and "undeclared identifier 'x'" in said
    status, out, said = call("float.c", cwd=tmp_path)
    assert status == 2 and out == "" and said.startswith("float.c:3: refused: floating point (x86_fp80): ")
    assert "usage" in call("--help", cwd=tmp_path)[1]
    assert call("a.c", "--verify", "--result", cwd=tmp_path)[0] == 1


def test_the_native_run_beside(tmp_path: Path) -> None:
    (tmp_path / "a.c").write_text(ECHO)
    (tmp_path / "words").write_text("40\n")
    assert call("a.c", "-DADD=2", "--verify", "--input", "words", cwd=tmp_path) == (
        0, "42\nhalt\n", "verified 1 words: natively they are the same\n")
    (tmp_path / "b.c").write_text('#include "wavescalar.h"\nint main(void) { ws_print(1);\n#ifdef __WAVESCALAR__\n'
                                  "ws_print(2);\n#else\nws_print(3), ws_print(4);\n#endif\n}\n")
    assert call("b.c", "--verify", cwd=tmp_path)[0::2] == (9, "b.c: word 2 is 2, and natively 3\n")
    (tmp_path / "c.c").write_text("#ifndef __WAVESCALAR__\n#include <signal.h>\n#endif\nint main(void) {\n"
                                  "#ifndef __WAVESCALAR__\nraise(SIGTERM);\n#endif\n}\n")
    assert call("c.c", "--verify", cwd=tmp_path)[0::2] == (9, "wscc: natively c.c is ended by signal 15\n")


PAST = """#include "wavescalar.h"
static int a[4], b[4];
int main(void) {
  b[ws_read()] = 7;
  ws_print((unsigned long)(a[1] + b[2]));
}
"""


def test_lines(tmp_path: Path) -> None:
    (tmp_path / "a.c").write_text(PAST)
    (tmp_path / "words").write_text("5\n")
    assert call("a.c", "--run", "--input", "words", cwd=tmp_path) == (8, "fault b\n", "a.c:4: past the end of b\n")
    assert re.search(r"^store_L4: store \d+ ", call("a.c", "-g", cwd=tmp_path)[1], re.MULTILINE)


def test_several_files(tmp_path: Path) -> None:
    (tmp_path / "main.c").write_text("""#include "wavescalar.h"
#include "more.h"
static int own(int n) { return n + 1; }
int main(void) {
  for (int k = 0; k < 2; k++) ws_print((unsigned long)table[k](own((int)ws_read())));
  ws_print((unsigned long)through(own, (int)ws_read()));
}
""")
    (tmp_path / "more.h").write_text("typedef int function(int);\nextern function *table[2];\nint through(function *, int);\n")
    (tmp_path / "more.c").write_text("""#include "more.h"
static int own(int n) { return 3 * n; }
static int other(int n) { return n * n; }
function *table[2] = {own, other};
int through(function *given, int n) { return given(n) + 1; }
""")
    (tmp_path / "words").write_text("4 6 8\n")
    line = ("main.c", "more.c", "--verify", "--input", "words")
    assert call(*line, cwd=tmp_path) == (0, "15\n49\n10\nhalt\n", "verified 3 words: natively they are the same\n")
    assert call("main.c", "--run", cwd=tmp_path)[0] == 2
    assert call("main.c", "main.c", "more.c", "--run", cwd=tmp_path)[0] == 2


def test_text(tmp_path: Path) -> None:
    (tmp_path / "a.c").write_text('#include <stdio.h>\nint main(void) { printf("sum %d\\n", 55); }\n')
    assert call("a.c", "--text", "--run", cwd=tmp_path) == (0, "sum 55\n", "halt\n")
    assert call("a.c", "--run", cwd=tmp_path) == (0, "55\nhalt\n", "")
    assert call("a.c", "--text", "--verify", cwd=tmp_path) == (
        0, "sum 55\n", "halt\nverified 7 characters: natively they are the same\n")


ARGUMENTS = r"""#include <stdio.h>
#include <stdlib.h>
#include <string.h>
#include "wavescalar.h"
int main(int count, char **arguments) {
  char line[8];
  for (int k = 0; k <= count; k++) ws_print(arguments[k] ? strlen(arguments[k]) : 99);
  if (count > 1) ws_print((unsigned long)atoi(arguments[1])), puts(arguments[count - 1]);
  while (fgets(line, sizeof line, stdin)) ws_print(strlen(line)), puts(line);
  int c = getchar();
  ws_print((unsigned long)c), ws_print(feof(stdin) != 0), ws_print((unsigned long)ungetc('x', stdin));
  ws_print((unsigned long)getc(stdin)), ws_print(fread(line, 2, 3, stdin));
}
"""


def test_arguments_and_standard_input(tmp_path: Path) -> None:
    (tmp_path / "a.c").write_text(ARGUMENTS)
    (tmp_path / "text").write_bytes(b"hello\r\nthis is long\n\n\xff end")
    line = ("a.c", "--text", "--arg", "42", "--arg", "two words", "--stdin", "text")
    status, out, said = call(*line, "--verify", cwd=tmp_path)
    assert status == 0 and out.startswith("0\n2\n9\n99\n42\ntwo words\n7\nhello") and "they are the same" in said
    assert call("a.c", "--text", "--verify", cwd=tmp_path)[0] == 0
    assert call("a.c", "--words", "--arg", "42", "--arg", "", "--stdin", "text", cwd=tmp_path)[1].split()[:6] == [
        "2", "2", "52", "50", "0", "26"]
    assert call("a.c", "--run", "--input", "text", "--stdin", "text", cwd=tmp_path)[0] == 1


def test_words_behind_arguments(tmp_path: Path) -> None:
    (tmp_path / "a.c").write_text('#include "wavescalar.h"\nint main(int n, char **texts, char **more) {\n'
                                  "ws_print((unsigned long)n + (unsigned char)texts[n - 1][0] + ws_read());\nreturn 0; }\n")
    (tmp_path / "words").write_text("1000\n")
    line = ("a.c", "--run", "--input", "words")
    assert call(*line, cwd=tmp_path)[1] == "1001\nhalt\n"
    assert call(*line, "--arg", "A", "--verify", cwd=tmp_path)[1] == f"{1000 + 2 + ord('A')}\nhalt\n"
    (tmp_path / "b.c").write_text(ECHO.replace("void", "int n, char **texts"))
    assert call("b.c", "-DADD=2", *line[1:], "--verify", cwd=tmp_path)[1] == "1002\nhalt\n"


def test_headers(tmp_path: Path) -> None:
    assert call("--headers", cwd=tmp_path) == (0, f"{HEADERS}\n", "")
    assert (HEADERS / "wavescalar.h").is_file()


def test_tools_that_are_not_there(tmp_path: Path, monkeypatch: pytest.MonkeyPatch) -> None:
    (tmp_path / "a.c").write_text(ECHO)
    monkeypatch.setenv("WSCC_CLANG", "no-such-clang")
    assert call("a.c", "-DADD=1", cwd=tmp_path)[0] == 70
    monkeypatch.delenv("WSCC_CLANG")
    monkeypatch.setenv("WSC", "no-such-wsc")
    assert call("a.c", "-DADD=1", "--run", cwd=tmp_path)[0] == 70
