"""Calls clang and opt: from a file of C to IR in which all is inlined into `main` and memory variables are values."""

from __future__ import annotations

import functools
import os
import re
import resource
import signal
import subprocess
import tempfile
from collections import Counter
from collections.abc import Sequence
from dataclasses import dataclass
from pathlib import Path

from wavescalar.c.faults import ToolFault
from wavescalar.c.floats import FLOATING
from wavescalar.c.whole import completed, prepared, takes_arguments

HEADERS = Path(__file__).parent / "include"
LIBRARY = Path(__file__).parent / "library"
ROUNDS = 4  # how often what was optimized may turn out to lack something, as a function that a pass calls
# Headers of the system are to declare functions, not to define them by what only they know.
MACROS = ["-D__WAVESCALAR__=1", "-D__NO_CTYPE", "-D__NO_INLINE__=1"]
EXACT = "-ffp-contract=off"  # a product and a sum of floating point are rounded each
NATIVE = ["-O1", "-fno-finite-loops", "-w", EXACT]  # for a native program; endless loops stay endless, as on the machine
SECONDS = 60  # of processor time that a native run may take
DIFFERS = 9  # the status of `wscc` where a native run does something else
# What every level of optimization begins with: whatever main calls is inlined into it; calls of a function by itself at
# its end become loops before. There is one thread, so atomic accesses are ordinary ones.
INLINE = ("internalize,forceattrs,function(loweratomic,sroa,early-cse,simplifycfg,instcombine,tailcallelim),"
          "always-inline,globaldce")
LEVELS = {
    0: "function(sroa,early-cse,simplifycfg)",
    1: "default<O1>",
    2: "default<O2>",
}
# What every level ends with: what is known of ranges, as flags; no switches, no constructs without a form on the machine.
TIDY = ("always-inline,globaldce,function(lower-constant-intrinsics,lower-expect,simplifycfg,sroa,instcombine,adce,"
        "simplifycfg,correlated-propagation,lowerswitch,loop-simplify)")
# A loop's test stays as it is written: `i < n` says more of i than `i != n`, and needs no other value than n.
OPTIONS = ["-internalize-public-api-list=main", "-replexitval=never", "-disable-lftr", "-vectorize-loops=false",
           "-vectorize-slp=false"]
# Of a loop that makes a known number of turns several stand between two tests; not where there is floating point, whose
# operations are functions that are inlined later, if they are few.
PARTIAL = ["-unroll-allow-partial", "-unroll-partial-threshold=150"]
# Below level 2 a loop keeps its test at its head, which makes for fewer firings. With the test at its end, as level 2
# has it, a turn's values needn't wait for the test, but another test stands in front.
KEPT = ["-rotation-max-header-size=0"]
CALLED = re.compile(rb"\bcall\b[^\n]*@(wscc_f(?:32|64)_\w+)\(")  # functions of floating point, which are large
SITES = 32  # how many calls of such a function are inlined at most; of more none is
DEFINED = re.compile(rb"^define .*?@([\w.$]+)\(", re.MULTILINE)


Sources = Path | Sequence[Path]  # the files of a program


@dataclass(frozen=True)
class Built:
    """The IR of a program, as text, and whether its input begins with the arguments of its `main`."""

    text: bytes
    takes_arguments: bool


@dataclass(frozen=True)
class Clang:
    """The programs; by default what the environment's WSCC_CLANG, WSCC_OPT and WSCC_LINK name, else `clang`, `opt` and
    `llvm-link`, which is called for programs of several files."""

    clang: str
    opt: str
    link: str = "llvm-link"

    @staticmethod
    def found() -> Clang:
        """The programs that the environment names."""
        return Clang(*(os.environ.get(f"WSCC_{name}") or usual
                       for name, usual in (("CLANG", "clang"), ("OPT", "opt"), ("LINK", "llvm-link"))))

    def version(self) -> int:
        """Its major version."""
        told = _call([self.clang, "--version"]).decode(errors="replace")
        number = re.search(r"version (\d+)", told)
        if number is None:
            raise ToolFault(f"{self.clang} doesn't tell its version")
        return int(number[1])

    def ir(self, sources: Sources, level: int = 1, words: Sequence[str] = (), as_text: bool = False) -> bytes:
        """The IR that `built` makes."""
        return self.built(sources, level, words, as_text).text

    def built(self, sources: Sources, level: int = 1, words: Sequence[str] = (), as_text: bool = False) -> Built:
        """The IR of files of C at this level, 0 to 2. words: more for clang, as `-I` and `-D`. as_text: whether what is
        printed is characters.

        Raises ToolFault where clang or opt fails; clang has said why on standard error.
        """
        version = self.version()
        words = [*words, *(["-D__WSCC_TEXT__=1"] if as_text else [])]
        written = self._linked([self._compiled(file, words) for file in _files(sources)])
        text = self._optimized(prepared(written, version), level)
        for _ in range(ROUNDS):
            more = completed(text, version, lambda file: self._compiled(LIBRARY / file, ["-w", *words]), as_text)
            if more is None:
                break
            text = self._optimized(prepared(more, version), level)
        return Built(text, takes_arguments(written))

    def native(self, sources: Sources, given: str, words: Sequence[str] = (), seconds: int = SECONDS,
               arguments: Sequence[str] = ()) -> str:
        """What a program prints natively that reads this text. words: more for clang. arguments: those of `main`, behind
        an empty name.

        Raises ToolFault where it can't be built, where a signal ends it, and where it takes more than so many seconds of
        processor time.
        """
        limit = functools.partial(resource.setrlimit, resource.RLIMIT_CPU, (seconds, seconds + 1))
        with tempfile.TemporaryDirectory() as room:
            program = str(Path(room) / "native")
            _call([self.clang, *NATIVE, f"-I{HEADERS}", *words, *map(str, _files(sources)), "-lm", "-o", program])
            done = subprocess.run(["", *arguments], executable=program, input=given.encode(errors="surrogateescape"),
                                  stdout=subprocess.PIPE, stderr=subprocess.PIPE, check=False, preexec_fn=limit)
        if done.returncode in (-signal.SIGXCPU, -signal.SIGKILL):
            raise ToolFault(f"natively {_files(sources)[0]} takes more than {seconds} s, or was killed", DIFFERS)
        if done.returncode < 0:
            raise ToolFault(f"natively {_files(sources)[0]} is ended by signal {-done.returncode}", DIFFERS)
        return done.stdout.decode(errors="surrogateescape")

    def _compiled(self, source: Path, words: Sequence[str]) -> bytes:
        """The IR of a file as it is written. clang would mark all loops as not to be unrolled at its level 1."""
        return _call([self.clang, "-O1", "-funroll-loops", "-Xclang", "-disable-llvm-passes", "-g",
                      "-fno-discard-value-names", "-fno-builtin-printf", "-fno-builtin-fprintf", EXACT, *MACROS,
                      f"-I{HEADERS}", *words, "-emit-llvm", "-S", str(source), "-o", "-"])

    def _linked(self, texts: list[bytes]) -> bytes:
        """One module of several."""
        if len(texts) == 1:
            return texts[0]
        with tempfile.TemporaryDirectory() as room:
            files = [Path(room) / f"{place}.ll" for place in range(len(texts))]
            for file, text in zip(files, texts):
                file.write_bytes(text)
            return _call([self.link, "-S", *map(str, files), "-o", "-"])

    def _optimized(self, text: bytes, level: int) -> bytes:
        """The IR with all inlined into `main`."""
        sites = Counter(CALLED.findall(text))
        often = [name.decode() for name, count in sites.items() if count > SITES]
        inlined = [name for name in map(bytes.decode, DEFINED.findall(text)) if name != "main" and name not in often]
        passes = ",".join([INLINE, LEVELS[level], TIDY])
        forced = [word for name in inlined for word in (f"-force-attribute={name}:alwaysinline",
                                                        f"-force-remove-attribute={name}:noinline")]
        forced += [f"-force-attribute={name}:noinline" for name in often]
        more = (KEPT if level < 2 else []) + ([] if FLOATING.search(text) else PARTIAL)
        with tempfile.TemporaryDirectory() as room:
            raw = Path(room) / "raw.ll"
            raw.write_bytes(text)
            return _call([self.opt, *OPTIONS, *more, *forced, f"-passes={passes}", "-S", str(raw), "-o", "-"])


def _files(sources: Sources) -> Sequence[Path]:
    return [sources] if isinstance(sources, Path) else sources


def _call(words: list[str]) -> bytes:
    """What a program prints. What it says on standard error goes to ours."""
    try:
        done = subprocess.run(words, stdout=subprocess.PIPE, check=False)
    except OSError as fault:
        raise ToolFault(f"{words[0]} can't be run: {fault.strerror} (Debian: clang, llvm)") from fault
    if done.returncode:
        raise ToolFault(f"{words[0]} ended with status {done.returncode}", 2)
    return done.stdout
