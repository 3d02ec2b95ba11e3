"""Gives the jobs of tests/ to the program that `rt ci` built, and compares answers and exit statuses.

In a file of tests/ a line `> wsc ..` is the command line. After it comes the job, without a line feed at its end, then
`=` and the exit status, then the answer up to an empty line. No line of tests/usage.txt is a command line. Jobs at the
limits of the language are made here. What `compile` prints of each job that `plain` runs must be sound, and must run as
the job does; so must the job itself, with 1, 2 and 8 workers. Its trace must replay, to rest if it came to rest. The same
holds of the other assemblies that run. All of them must run with decoupled stores as they do with workers, and on grids
of a few sizes, or exhaust a grid's budget. If `decouple` has printed words when its budget is exhausted, `exec` must have
printed fewer. What `run`, `exec`, `bench` and `multi` answer of a run that completes, they must answer with 2 and 8
workers too. Each file of tests/ has at least as many cases as stand here for it.
Of a few jobs the image's instructions are counted. A job that gives words to port 1 writes them to standard
error, and ends where that can't be written.
"""

import os
import pathlib
import subprocess
import sys
from concurrent.futures import ThreadPoolExecutor
from collections.abc import Iterable, Iterator

from wavescalar.programs import ROOT

PROGRAM = pathlib.Path(os.environ.get("WSC") or ROOT / "crates" / "wsc" / "out" / "wsc").resolve()
USAGE = (
    "usage: wsc run|plain|format|compile|check|exec|list|trace|replay|gen|bench|multi|decouple|grid"
    " [--workers N] [--budget N] [--turns N] [--elements N] [--waves N] [--memory] [--stats] [NUMBER]\n"
)

# How many instances may fire on a grid, where a line says nothing of it.
GRID_BUDGET = 100000

# The files of tests/, and how many cases each has at least.
LEAST = {
    "assembly.txt": 105,
    "bench.txt": 9,
    "changes.txt": 129,
    "check.txt": 28,
    "compile.txt": 6,
    "decouple.txt": 18,
    "exec.txt": 15,
    "format.txt": 6,
    "gen.txt": 5,
    "grid.txt": 25,
    "late_stores.txt": 7,
    "multi.txt": 25,
    "plain.txt": 57,
    "refusals.txt": 193,
    "run.txt": 11,
    "traces.txt": 46,
    "usage.txt": 125,
}

# The words, the job, the status and the answer; a job, how its listing ends, and how many of some lines it has.
Case = tuple[list[str], str, int, str]
Shape = tuple[str, str, dict[str, int]]


def names(count: int, begin: str, end: str, between: str = "") -> str:
    """So many names, each with what stands around it."""
    return between.join(f"{begin}v{number}{end}" for number in range(count))


def limits() -> list[tuple[str, str]]:
    """Jobs as large as a limit, and one past it, with what `plain` answers."""
    main = " proc main() { }"
    deep = "proc main() {" + " if(0){" * 31
    wide = "x=" + "x+" * 126 + "x;"
    call = "v0=f(" + names(8, "", "", ",") + ");"
    every = "print " + names(32, "", "", "+") + ";"
    return [
        ("proc main() {" + "print 9;" * 2048 + "}", "9\n" * 2048 + "halt"),
        ("proc main() { " + "print 1; " * 2049 + "}", "refused 1:18447 limit statements"),
        ("proc main() { " + "if(0){}" * 2048 + "}", "halt"),
        ("proc main() { " + "if(0){}" * 2048 + "return 1; }", "refused 1:14351 limit statements"),
        ("proc main() { var x; " + wide * 2047 + "print x; }", "0\nhalt"),
        (
            "proc f(" + names(8, "", "", ",") + ") { } "
            + "proc main() { var " + names(32, "", "", ",") + ";" + call * 2047 + every + "}",
            "0\nhalt",
        ),
        ("proc main() { print " + "(" * 80 + "7" + ")" * 80 + "; }", "7\nhalt"),
        ("proc main() { print 1" + " + 1" * 127 + "; }", "128\nhalt"),
        ("proc main() {" + "(" * 256 + "; }", "refused 1:14 syntax"),
        ("proc main() {" + "(" * 257 + "; }", "refused 1:270 limit lexemes"),
        ("proc main() { var " + "n" * 64 + "; }", "halt"),
        ("proc main() { var " + "n" * 65 + "; }", "refused 1:19 limit name"),
        (deep + "print;", "refused 1:236 syntax"),
        (deep + " if(0){print;", "refused 1:237 limit depth"),
        ("}" * 40 + " { { {", "refused 1:1 syntax"),
        ("proc f(" + names(8, "", "", ", ") + ") { }" + main, "halt"),
        ("proc f(" + names(9, "", "", ", ") + ") { }" + main, "refused 1:40 limit params"),
        ("proc main() { var " + names(32, "", "", ", ") + "; }", "halt"),
        ("proc main() { var " + names(33, "", "", ", ") + "; }", "refused 1:169 limit vars"),
        (names(64, "array ", "[16384];") + main, "halt"),
        (names(65, "array ", "[16384];") + main, "refused 1:1085 limit arrays"),
        (names(64, "array ", "[16385];") + main, "refused 1:1072 limit cells"),
        (names(63, "proc ", "() { }") + "proc main() { }", "halt"),
        (names(64, "proc ", "() { }") + "proc main() { }", "refused 1:892 limit procs"),
    ]


def shapes() -> list[Shape]:
    """Small jobs, with how the listing of their image ends and how many of some lines it has."""
    return [
        (
            "array a[1]; proc main() { var x; read x; if (x) { a[0] = 1; } print a[0]; }",
            " 6 operations",
            {"nop": 1},
        ),
        (
            "proc main() { var i, s; i = 1; while (i <= 10) { s = s + i; i = i + 1; } print s; }",
            " 4 operations",
            {"wave": 2},
        ),
        (
            "proc main() { var x, a; read a; read x; if (x) { print 1; } else { print 2; } print a; }",
            "",
            {"steer": 1},
        ),
        (
            "proc main() { var x, y; read x; if (x) { y = 3; } else { y = 4; } print y; }",
            "",
            {"phi": 1, "steer": 0},
        ),
    ]


def threads() -> list[tuple[str, int, str]]:
    """Texts of several jobs that no file of tests/ can have, with the status and the answer."""
    seven = "proc main() { print 7; }"
    each = "".join(f"thread {number}\n7\nhalt\n" for number in (1, 2))
    long = 1048576 - len(seven) - len("\n%job\n")
    padded = seven + "\n%job\n" + seven.ljust(long)
    return [
        (f"{seven}\r\n%job\r\n{seven}\r\n", 0, each),
        (f"{seven}\n%job\r\n{seven}", 0, each),
        (f"{seven}\r\n%job\r", 2, "refused 2:6 main\n"),
        (f"{seven}\n%job\rproc main() {{ }}", 2, "refused 2:1 syntax\n"),
        (padded, 0, each),
        (padded + " ", 2, "refused long\n"),
        ("%job\n" * 3 + "@" * 1048561, 2, "refused 1:1 main\n"),
        ("%job\n" * 4 + "@" * 1048556, 2, "refused 4:1 threads\n"),
        ("%job\n" * 4 + "@" * 1048557, 2, "refused long\n"),
    ]


def cases_of(file: pathlib.Path) -> Iterator[Case]:
    """The cases of a file: the words, the job, the status and the answer."""
    lines = file.read_text().split("\n")
    at = 0
    while at < len(lines):
        if not lines[at].startswith("> wsc "):
            at += 1
            continue
        words = lines[at].removeprefix("> wsc ").split(" ")
        status = next(i for i in range(at, len(lines)) if lines[i].startswith("= "))
        end = lines.index("", status)
        answer = "".join(line + "\n" for line in lines[status + 1 : end])
        yield words, "\n".join(lines[at + 1 : status]), int(lines[status][2:]), answer
        at = end


def cases_in(file: pathlib.Path) -> list[Case]:
    """The same of any file of tests/."""
    if file.name != "usage.txt":
        return list(cases_of(file))
    return [(line.split(" "), "proc main() { }", 1, USAGE) for line in file.read_text().splitlines()]


def few(files: Iterable[pathlib.Path]) -> Iterator[str]:
    """The files that have fewer cases than they are to have, that aren't there, or that have no such number."""
    counts = {file.name: len(cases_in(file)) for file in files}
    for name in sorted({*LEAST, *counts}):
        if name not in LEAST:
            yield f"tests/{name} has no least number of cases in {pathlib.Path(__file__).relative_to(ROOT)}\n"
        elif counts.get(name, 0) < LEAST[name]:
            yield f"tests/{name} has {counts.get(name, 0)} cases and not {LEAST[name]}\n"


def cases(files: Iterable[pathlib.Path]) -> Iterator[Case]:
    """All cases of files, and those that are made here."""
    for file in files:
        yield from cases_in(file)
        # what is printed reads as the same program
        yield from ((w, a, 0, a) for w, _, code, a in cases_in(file) if w == ["format"] and code == 0)
    for text, status, answer in threads():
        yield ["multi"], text, status, answer
    for job, answer in limits():
        yield ["plain"], job, 2 if answer.startswith("refused") else 0, answer + "\n"


def wrong(case: Case) -> str:
    """What a case answers otherwise than it says, or nothing."""
    words, job, status, answer = case
    ran = subprocess.run([PROGRAM, *words], input=job.encode(), stdout=subprocess.PIPE, check=False)
    found = ran.stdout.decode(errors="replace")
    if (ran.returncode, found) == (status, answer):
        return ""
    return (
        f"{job[:2000]}\nwsc {' '.join(words)} answers with status {ran.returncode}\n"
        f"{found}and not with status {status}\n{answer}"
    )


def compiled_wrong(case: Case) -> str:
    """The same of the image that a job compiles to, with the job's input words, and of its `run`."""
    words, job, status, answer = case
    ran = subprocess.run([PROGRAM, "compile"], input=job.encode(), stdout=subprocess.PIPE, check=False)
    if ran.returncode != 0:
        return f"{job[:2000]}\nwsc compile answers with status {ran.returncode}\n"
    assembly = ran.stdout.decode()
    text = assembly + "".join(job.partition("%input")[1:])
    options = [*[word for word in words if word == "--memory"], "--budget", "4000000"]
    return (
        wrong((["check"], assembly, 0, "sound\n"))
        or wrong((["exec", *options], text, status, answer))
        or decoupled_wrong((words, text, status, answer))
        or wrong((["run", *options], job, status, answer))
        or wrong((["run", *options, "--workers", "2"], job, status, answer))
        or wrong((["run", *options, "--workers", "8"], job, status, answer))
        or traced_wrong((words, text, status, answer))
        or gridded_wrong((words, text, status, answer))
    )


def crewed_wrong(case: Case) -> str:
    """What a run that comes to its end answers otherwise with two workers, or with eight, or nothing."""
    words, text, status, answer = case
    return "".join(wrong(([*words, "--workers", count], text, status, answer)) for count in ("2", "8"))


def decoupled_wrong(case: Case) -> str:
    """The same of an assembly that runs to its end or a fault, with decoupled stores."""
    words, text, status, answer = case
    call = ["decouple", *[word for word in words if word in ("--memory", "--stats")], "--budget", "4000000"]
    return wrong((call, text, status, answer))


def undecoupled(case: Case) -> str:
    """The same where `exec` answers as `decouple` does, which has spent its budget and has printed words by then:
    `exec` hasn't fired what these words wait for."""
    words, text, status, answer = case
    for count in ("1", "2", "8"):
        call = ["exec", *words[1:], "--workers", count]
        ran = subprocess.run([PROGRAM, *call], input=text.encode(), stdout=subprocess.PIPE, check=False)
        if (ran.returncode, ran.stdout.decode(errors="replace")) == (status, answer):
            return f"{text[:2000]}\nwsc {' '.join(call)} answers as wsc decouple does\n{answer}"
    return ""


def traced_wrong(case: Case) -> str:
    """The same of the trace of an assembly that runs, given to `replay`."""
    _, text, status, answer = case
    traced = subprocess.run([PROGRAM, "trace"], input=text.encode(), stdout=subprocess.PIPE, check=False)
    replayed = subprocess.run([PROGRAM, "replay"], input=traced.stdout, stdout=subprocess.PIPE, check=False)
    words = [line for line in answer.splitlines() if line.isdigit()]
    told = replayed.stdout.decode(errors="replace").splitlines()
    right = {
        0: status == 0 and told[-2:-1] == ["rest"] and told[:-2] == words,
        3: told[-2:] == ["open", "firings 100000"] and told[:-2] == words[: len(told) - 2],
        8: status == 8 and told[-2:-1] in (["rest"], ["open"]) and told[:-2] == words,
    }
    if replayed.returncode == 0 and right.get(traced.returncode, False):
        return ""
    return (
        f"{text[:2000]}\nwsc trace answers with status {traced.returncode}, and wsc replay of that with"
        f" status {replayed.returncode}\n{replayed.stdout.decode(errors='replace')[-2000:]}"
    )


def cost(text: str) -> int:
    """How many instances fire in a run of an assembly that comes to its end."""
    call: list[str | pathlib.Path] = [PROGRAM, "exec", "--stats", "--budget", "4000000"]
    ran = subprocess.run(call, input=text.encode(), stdout=subprocess.PIPE, check=False)
    return int(ran.stdout.decode().split()[-1])


def gridded_wrong(case: Case) -> str:
    """The same of an assembly that runs, on grids. A run that is too dear for a grid spends its budget."""
    words, text, status, answer = case
    lines = [line for line in answer.splitlines() if not line.startswith("firings ")]
    is_dear = status == 0 and cost(text) > GRID_BUDGET
    for elements, waves in (("1", "1"), ("16", "4"), ("64", "1000000")):
        call = ["grid", *[word for word in words if word == "--memory"], "--elements", elements, "--waves", waves]
        ran = subprocess.run([PROGRAM, *call], input=text.encode(), stdout=subprocess.PIPE, check=False)
        told = ran.stdout.decode(errors="replace").splitlines()
        if is_dear:
            right = ran.returncode == 3 and told[-1:] == ["budget"] and told[:-1] == lines[: len(told) - 1]
        else:
            right = (ran.returncode, told) == (status, lines)
        if not right:
            return f"{text[:2000]}\nwsc {' '.join(call)} answers with status {ran.returncode}\n{ran.stdout.decode(errors='replace')}"
    return ""


PORTS = "proc main() { var x; take 1, 7; take 2, 9; take 1, 18446744073709551615; give 1, x; print x; }"


def port_wrong(workers: int) -> str:
    """The same of a job that gives words to port 1, which is standard error, and to an empty one."""
    call: list[str | pathlib.Path] = [PROGRAM, "run", "--workers", str(workers)]
    ran = subprocess.run(call, input=PORTS.encode(), capture_output=True, check=False)
    with open("/dev/full", "wb") as full:
        failed = subprocess.run(call, input=PORTS.encode(), stdout=subprocess.PIPE, stderr=full, check=False)
    found = (ran.returncode, ran.stdout, ran.stderr, failed.returncode, failed.stdout)
    right = (0, b"0\nhalt\n", b"7\n18446744073709551615\n", 6, b"port 1\n")
    return "" if found == right else f"{PORTS}\nwith {workers} workers comes to {found} and not to {right}\n"


def misshapen(shape: Shape) -> str:
    """What the image of a job has otherwise than it says."""
    job, end, counts = shape

    def give(word: str, text: bytes) -> bytes:
        return subprocess.run([PROGRAM, word], input=text, stdout=subprocess.PIPE, check=False).stdout

    assembly = give("compile", job.encode())
    listing = give("list", assembly).decode()
    words = [line.partition(": ")[2] or line for line in assembly.decode().splitlines()]
    found = {kind: sum(word.split(" ")[0] == kind for word in words) for kind in counts}
    if found == counts and listing.endswith(end + "\n"):
        return ""
    return f"{job}\nhas {found} and not {counts}, and its listing is to end in{end}\n{listing}"


def main() -> int:
    if not PROGRAM.exists():
        subprocess.run([ROOT / "wsc"], stdout=subprocess.DEVNULL, check=False)
    files = sorted((ROOT / "tests").glob("*.txt"))
    rows = list(cases(files))
    runs = [row for row in rows if row[0][0] == "plain" and row[2] in (0, 8) and "--stats" not in row[0]]
    images = [row for row in rows if row[0][0] == "exec" and row[2] in (0, 8)]
    late = [row for row in rows if row[0][0] == "decouple" and row[2] == 3 and row[3][:1].isdigit()]
    ended = [row for row in rows if row[0][0] in ("run", "exec", "bench", "multi") and row[2] == 0]
    crews = [row for row in ended if not any(word.startswith("--workers") for word in row[0])]
    with ThreadPoolExecutor(4) as pool:
        checks = (
            pool.map(wrong, rows),
            pool.map(compiled_wrong, runs),
            pool.map(traced_wrong, images),
            pool.map(decoupled_wrong, images),
            pool.map(undecoupled, late),
            pool.map(gridded_wrong, images),
            pool.map(crewed_wrong, crews),
            pool.map(misshapen, shapes()),
            pool.map(port_wrong, (1, 4, 8)),
        )
        found = [*few(files), *(text for check in checks for text in check if text)]
    count = f"{len(rows)} answers, {len(runs)} images, {len(runs) + len(images)} traces, {len(crews)} runs of crews, {len(found)} wrong"
    print("\n".join([*found, count]))
    return 1 if found else 0


if __name__ == "__main__":
    sys.exit(main())
