"""The lines that the native program and the modules are given: all cases of tests/*.txt and of repo.answers, the examples, and
what follows from them: of each job that `plain` runs its assembly, what every command answers to that, and its trace replayed.
"""

from __future__ import annotations

import subprocess
from concurrent.futures import ThreadPoolExecutor

from repo import answers
from wavescalar.programs import ROOT

# A line: its words, and the bytes that it reads.
Line = tuple[list[str], bytes]
# A status, and two streams.
Answer = tuple[int, bytes, bytes]
# Folders of examples, and the lines for each kind of file.
EXAMPLES = ("examples", "examples/kernels", "examples/timing", "examples/viewer")
OF_EXAMPLES: dict[str, list[list[str]]] = {
    ".job": [["run", "--workers", "8", "--stats", "--memory"], ["plain", "--stats"]], ".jobs": [["multi", "--stats"]],
    ".asm": [["exec", "--stats"], ["list"], ["check"], ["grid"], ["run"]], ".trace": [["replay"]]}
# Runs that take much memory, and such as take long.
LONG: list[Line] = [
    (["run", "--budget", "500000", "--memory"], b"proc main() { while (1) { print 1; } }"),
    (["plain", "--turns", "500000"], b"proc main() { var i; while (1) { print i; i = i + 1; } }"),
    (["run", "--budget", "4000000", "--stats"], b"proc main() { var i, s; while (i < 100000) { s = s + i; i = i + 1; } print s; }")]


class Native:
    """A native program."""

    def __init__(self, program: str):
        self.program = program

    def __call__(self, line: Line) -> Answer:
        ran = subprocess.run([self.program, *line[0]], input=line[1], capture_output=True, check=False)
        return ran.returncode, ran.stdout, ran.stderr


def derived(native: Native, job: bytes) -> list[Line]:
    """The lines that follow from a job: of its assembly, and of its trace."""
    assembly = native((["compile"], job))[1]
    mark = job.find(b"%input")
    text = assembly + (job[mark:] if mark >= 0 else b"")
    lines: list[Line] = [(["compile"], job), (["format"], job), (["run", "--stats", "--memory", "--workers", "8"], job)]
    lines += [(["check"], assembly), (["list"], assembly), (["exec", "--stats", "--budget", "300000"], text)]
    lines += [(["decouple", "--stats", "--budget", "300000"], text), (["trace", "--budget", "5000"], text)]
    lines += [(["grid", "--stats", "--elements", "16", "--waves", "4", "--budget", "5000"], text)]
    return [*lines, (["replay"], native((["trace", "--budget", "5000"], text))[1])]


def jobs_of(rows: list[answers.Case]) -> list[bytes]:
    """The jobs that `plain` runs, and those of the examples."""
    jobs = [job.encode() for words, job, status, _ in rows if words[0] == "plain" and status in (0, 8)]
    files = [it for folder in EXAMPLES for it in sorted((ROOT / folder).glob("*.job"))]
    return list(dict.fromkeys([*jobs, *(it.read_bytes() for it in files)]))


def texts_of_examples(ending: str) -> list[bytes]:
    """The examples of this kind."""
    return [it.read_bytes() for folder in EXAMPLES for it in sorted((ROOT / folder).glob(f"*{ending}"))]


def lines_of(native: Native) -> list[Line]:
    """All lines that are compared, each once."""
    rows = list(answers.cases(sorted((ROOT / "tests").glob("*.txt"))))
    lines: list[Line] = [(words, job.encode()) for words, job, _, _ in rows]
    lines += [(["run"], answers.PORTS.encode()), *LONG]
    for file in (it for folder in EXAMPLES for it in sorted((ROOT / folder).glob("*"))):
        lines += [(words, file.read_bytes()) for words in OF_EXAMPLES.get(file.suffix, [])]
    with ThreadPoolExecutor(2) as pool:
        for more in pool.map(lambda job: derived(native, job), jobs_of(rows)):
            lines += more
    return [(list(words), text) for words, text in dict.fromkeys((tuple(words), text) for words, text in lines)]
