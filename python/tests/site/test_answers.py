"""What the module answers in Chromium and in Node is what the native program answers: status, standard output and standard
error are equal, byte for byte. Then come a run that a page stops, and runs with too little memory.
"""

from __future__ import annotations

import base64
import json
import pathlib
import re
import subprocess
import time
from collections import Counter
from collections.abc import Iterator
from concurrent.futures import ThreadPoolExecutor
from dataclasses import dataclass

import pytest

from tests import asked
from tests.browser import Browser, found
from tests.scripts import node
from tests.site.lines import LONG, Answer, Line, Native, lines_of, texts_of_examples
from tests.site.served import Served
from tests.viewer.test_pages import again

HERE = pathlib.Path(__file__).resolve().parent
# So many bytes of lines are given at a time.
BATCH = 1 << 20
# One line of so many is tried in Node where Chromium tries them too.
SHARE = 5
STARVED, NO_MEMORY, ENOUGH = 17 << 20, 7, 256 << 20
# Its array and its words take what there is.
HUNGRY = "proc main() { var i; while (i < 3000000) { print i; i = i + 1; } }"
# wss lacks memory for these arrays, of which it writes what is in them.
WIDE = " ".join(f"array a{count}[65536];" for count in range(15)) + " proc main() { a5[5] = 1; print a5[5]; }"
# Texts that are no drafts, and what a note is.
DRAFTS = [b"", b"wavescalar 1\n", b"proc main() { }"]
NOTE = re.compile(rb"<[^<>]*>\.[0-9]+")
# Lines of wss for each assembly, which may have no end of its own. It runs one in slices of 1,024 firings.
OF_STREAM = [["--budget", "300000"], ["--memory", "--budget", "20000"], ["--budget", "300000", "--stats", "--memory"],
             *(["--stats", "--budget", str(count)] for count in (0, 1, 1023, 1024, 1025, 5000))]
# Lines for an example, which has an end.
OF_END: list[list[str]] = [[], ["--memory"], ["--stats"], ["--stats", "--memory"]]
# Lines that are refused whatever is read, or read otherwise than they might be.
WORDS = [["--budget"], ["--budget", "x"], ["--budget", "-1"], ["--budget", ""], ["--budget", "007"], ["--budget", str(2**64)],
         ["--budget", str(2**64 - 1)], ["--budget", "5", "--budget", "6"], ["--stats", "--stats"], ["--workers", "2"], ["--stat"],
         ["--help"], ["run"], ["7"], ["", ""], ["--memory", "\u00e9"]]

PAGE = """<!doctype html><meta charset="utf-8"><script type="module">
import {load} from "./wsc.js";
import {Host} from "./host.js";
window.load = load; window.Host = Host; window.hosts = {};
for (const name of ["wsc", "wsl", "wss"])
  hosts[name] = new Host(await WebAssembly.compile(await (await fetch(`${name}.wasm`)).arrayBuffer()), name);
const bytes = text => Uint8Array.from(atob(text), it => it.charCodeAt(0));
const text = bytes => { let made = ""; for (let k = 0; k < bytes.length; k += 8192) made += String.fromCharCode(...bytes.subarray(k, k + 8192)); return btoa(made); };
window.answers = (name, lines) => lines.map(([words, input]) => {
  try { const it = hosts[name].call(words, bytes(input)); return [it.status, text(it.out), text(it.err)]; }
  catch (fault) { return [String(fault), "", ""]; }
});
window.there = true;
</script>"""


@dataclass
class Asked:
    """Lines, and what the native program answers to them."""

    program: str
    lines: list[Line]
    right: list[Answer]

    def compare(self, where: str, first: int, step: int, answers: list[Answer]) -> None:
        """Fails where a line is answered otherwise; `answers` are those of each of so many lines."""
        lines, right = self.lines[first::step], self.right[first::step]
        asked.want(f"lines of {self.program} that were answered {where}", len(answers), len(lines))
        for (words, text), made, wanted in zip(lines, answers, right):
            asked.want(f"{where}: {self.program} {' '.join(words)} < {text[:300]!r}", made, wanted)


@pytest.fixture(scope="module")
def wsc_lines(wsc: str, every: int) -> Asked:
    """Lines of wsc."""
    native = Native(wsc)
    lines = lines_of(native)[::every]
    with ThreadPoolExecutor(2) as pool:
        right = list(pool.map(native, lines))
    statuses = ", ".join(f"{count} with status {status}" for status, count in sorted(Counter(it[0] for it in right).items()))
    asked.say(f"{len(lines)} lines of wsc by the native program: {statuses}")
    return Asked("wsc", lines, right)


def drafts(lines: list[Line]) -> list[Line]:
    """Lines of wsl, which reads a draft: each assembly that `check` reads, with its notes and without them."""
    images = [text for words, text in lines if words[:1] == ["check"] and text.startswith(b"wavescalar")]
    bare = [NOTE.sub(b"<?, 0, ?>.0", text) for text in images]
    return [([], text) for text in dict.fromkeys([*DRAFTS, *images, *bare])]


@pytest.fixture(scope="module")
def wsl_lines(wsl: str, wsc_lines: Asked) -> Asked:
    """Lines of wsl."""
    lines = drafts(wsc_lines.lines)
    return Asked("wsl", lines, [Native(wsl)(line) for line in lines])


def streams(wsc: Native, lines: list[Line]) -> list[Line]:
    """Lines of wss, which runs assemblies: those that `exec` is given, what is refused as such, jobs among it, runs that are
    long, and examples with no budget; then words that are refused.
    """
    texts = dict.fromkeys(text for words, text in lines if words[:1] == ["exec"])
    more = dict.fromkeys(text for words, text in lines if words[:1] in (["check"], ["run"]))
    long = [wsc((["compile"], job))[1] for words, job in LONG if words[0] == "run"]
    ends = texts_of_examples(".asm")
    made = [(words, text) for text in texts for words in OF_STREAM] + [(OF_STREAM[0], text) for text in more]
    made += [(["--budget", str(count), "--stats", "--memory"], text) for text in long for count in (500000, 2000000)]
    made += [(words, text) for text in ends for words in OF_END] + [(words, ends[0]) for words in WORDS]
    return [(list(words), text) for words, text in dict.fromkeys((tuple(words), text) for words, text in made)]


@pytest.fixture(scope="module")
def wss_lines(wsc: str, wss: str, wsc_lines: Asked) -> Asked:
    """Lines of wss."""
    native = Native(wss)
    lines = streams(Native(wsc), wsc_lines.lines)
    with ThreadPoolExecutor(2) as pool:
        right = list(pool.map(native, lines))
    return Asked("wss", lines, right)


def batches(lines: list[Line]) -> Iterator[list[Line]]:
    """Lines in parts that aren't too large."""
    part: list[Line] = []
    size = 0
    for line in lines:
        if part and size + len(line[1]) > BATCH:
            yield part
            part, size = [], 0
        part.append(line)
        size += len(line[1])
    if part:
        yield part


def coded(lines: list[Line]) -> str:
    """Lines as JSON."""
    return json.dumps([[words, base64.b64encode(text).decode()] for words, text in lines])


def decoded(told: list[tuple[int, str, str]]) -> list[Answer]:
    """What a module answered."""
    return [(status, base64.b64decode(out), base64.b64decode(err)) for status, out, err in told]


def in_page(browser: Browser, name: str, lines: list[Line]) -> list[Answer]:
    """What the module of this name answers in Chromium."""
    return [it for part in batches(lines) for it in decoded(browser.value(f"answers({name!r}, {coded(part)})"))]


def in_node(folder: pathlib.Path, name: str, lines: list[Line]) -> list[Answer]:
    """What it answers in Node."""
    made: list[Answer] = []
    program = node() or ""
    for part in batches(lines):
        ran = subprocess.run([program, str(HERE / "answers.mjs"), str(folder), name], input=coded(part), capture_output=True,
                             text=True, check=True)
        made += decoded(json.loads(ran.stdout))
    return made


def of_starved(browser: Browser) -> None:
    """Where memory doesn't grow the status is 7; with enough of it, it is 0."""
    ask = "(() => {{ const it = new Host(hosts.wsc.module, 'wsc', {most}).call(['run', '--budget', '4000000'], " \
          "new TextEncoder().encode({job})); return it.status; }})()"
    for most in range(STARVED, STARVED + (8 << 20), 1 << 20):
        asked.want(f"the status with {most} bytes", browser.value(ask.format(most=most, job=json.dumps(HUNGRY))), NO_MEMORY)
    for most in (ENOUGH, 2 << 30):
        small = json.dumps(HUNGRY.replace("3000000", "20000"))
        asked.want(f"the status with {most} bytes", browser.value(ask.format(most=most, job=small)), 0)


def of_starved_stream(browser: Browser) -> None:
    """The same of wss."""
    ask = "(() => {{ const job = new TextEncoder().encode({job}), made = hosts.wsc.call(['compile'], job).out; " \
          "return new Host(hosts.wss.module, 'wss', {most}).call(['--memory'], made).status; }})()"
    for most, status in ((STARVED, NO_MEMORY), (STARVED + (1 << 20), NO_MEMORY), (ENOUGH, 0), (2 << 30, 0)):
        asked.want(f"the status of wss with {most} bytes", browser.value(ask.format(most=most, job=json.dumps(WIDE))), status)


def of_stopped(browser: Browser) -> None:
    """A run that a page stops ends, and the next one is answered."""
    told = browser.value("""(async () => {
      const wsc = await load("wsc.wasm"), stop = new AbortController();
      const long = wsc.run(["plain", "--turns", "4000000"], "proc main() { while (1) { } }", {signal: stop.signal});
      setTimeout(() => stop.abort(), 100);
      const why = await long.catch(fault => fault.name), next = await wsc.run(["run"], "proc main() { print 7; }");
      return [why, next.status, next.out];
    })()""")
    asked.want("a stopped run, and the next one", told, ["AbortError", 0, "7\nhalt\n"])


@pytest.mark.usefixtures("chromium")
def test_chromium(site: pathlib.Path, wsc_lines: Asked, wsl_lines: Asked, wss_lines: Asked) -> None:
    """All lines in Chromium."""
    trial = site / "trial_of_answers.html"
    trial.write_text(PAGE)

    def tried() -> None:
        with Served(site) as address, Browser(800, 600) as browser:
            browser.visit(address + trial.name, "window.there")
            begun = time.monotonic()
            for it in (wsc_lines, wsl_lines, wss_lines):
                it.compare("in Chromium", 0, 1, in_page(browser, it.program, it.lines))
            asked.say(f"{len(wsc_lines.lines)} lines of wsc, {len(wsl_lines.lines)} of wsl and {len(wss_lines.lines)} of wss "
                      f"answered in Chromium as by the native programs, in {time.monotonic() - begun:.1f} s")
            of_starved(browser)
            of_starved_stream(browser)
            of_stopped(browser)

    try:
        again(tried)
    finally:
        trial.unlink()


def test_node(site: pathlib.Path, wsc_lines: Asked, wsl_lines: Asked, wss_lines: Asked) -> None:
    """Lines in Node: one of five where Chromium is here too, else all."""
    if not node():
        pytest.skip("no Node (Debian: nodejs)")
    step = SHARE if found() else 1
    for it in (wsc_lines, wsl_lines, wss_lines):
        it.compare("in Node", step // 2, step, in_node(site, it.program, it.lines[step // 2 :: step]))
    asked.say(f"one of {step} of these lines answered in Node as by the native program")
