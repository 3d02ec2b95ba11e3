"""The site of ./web in Chromium, as a student would use it.

What is tried of the page of wsc-serve (tests/viewer/served_page.py) is tried here too; then that what is followed is in sight at each
step, that each example is answered as the native program answers it, what stops, what is saved, the numbers of the lesson, the
keyboard, the page without a network, and that nothing outside the folder is asked for.
"""

from __future__ import annotations

import json
import pathlib
import re
import subprocess
import time
import urllib.parse
from typing import Any

import pytest

from tests import asked
from tests.browser import PATIENCE, Browser
from tests.site.lines import EXAMPLES
from tests.site.served import Quiet, Served
from tests.viewer.served_page import BOTH, SHOWN, WORDS, load, of_all, of_narrow, ran
from tests.viewer.test_pages import again
from tests.viewer.trial import Trial
from wavescalar.programs import ROOT
from wavescalar.viewer.orders import is_order

WIDE, NARROW, LARGE = (1366, 768), (390, 844), (1920, 1080)
# What is followed: examples, orders, and every how manieth event.
FOLLOWED = (("sum", "trace", "random-1", 1), ("squares", "grid-4-2", "rounds", 1), ("early", "random-4", "random-1", 1),
            ("sorting", "rounds", "random-9", 7), ("matrix", "trace", "random-3", 13), ("landings.asm", "trace", "rounds", 1))
# At each of these events, in each order, whether the instruction lies in the drawing as a whole: how many were looked at, and
# those that don't, by order and event.
SEEN = """(async every => {
  let many = 0;
  const lost = [];
  for (let k = 1; k <= most(); k += every) {
    goTo(k);
    for (const side of SIDES) {
      const page = $(side).querySelector("iframe").contentWindow, [node] = page.document.querySelectorAll(".node.now > rect");
      const view = page.document.querySelector("#view").getBoundingClientRect(), it = node.getBoundingClientRect();
      many++;
      if (it.left < view.left - 1 || it.right > view.right + 1 || it.top < view.top - 1 || it.bottom > view.bottom + 1 ||
          it.height < 12) lost.push(`${side} ${k}`);
    }
  }
  return [many, lost];
})"""
# A loop without end.
ENDLESS = "array a[64]; proc main() { var i; while (1) { a[i % 64] = a[(i + 7) % 64] + i; i = i + 1; } }"
# How often Tab is pressed to come round the page.
TABS = 40
SLIDES = 10


def native(program: str, words: list[str], text: str) -> list[Any]:
    """The status and the two streams of a line, as the page's module gives them."""
    ran_it = subprocess.run([program, *words], input=text.encode(), capture_output=True, check=False)
    return [ran_it.returncode, ran_it.stdout.decode(errors="replace"), ran_it.stderr.decode(errors="replace")]


def of_examples(trial: Trial, program: str, every: int) -> None:
    """Each text of the examples, by the page's own worker."""
    ask = "moduleOf('wsc').then(it => it.run({words}, {text})).then(it => [it.status, it.out, it.err])"
    files = [it for name in EXAMPLES for it in sorted((ROOT / name).glob("*"))
             if it.suffix in (".job", ".jobs", ".asm", ".trace")][::every]
    for file in files:
        text = file.read_text()
        lines = {".job": [["run", "--workers", "8", "--stats", "--memory"], ["plain", "--stats"], ["compile"], ["exec"]],
                 ".jobs": [["multi", "--stats"]], ".asm": [["exec", "--stats"], ["list"], ["check"], ["run"]],
                 ".trace": [["replay"]]}[file.suffix]
        for words in lines:
            made = trial.browser.value(ask.format(words=json.dumps(words), text=json.dumps(text)))
            asked.want(f"wsc {' '.join(words)} < {file.name}", made, native(program, words, text))
    asked.say(f"{len(files)} examples are answered by the page as by the native program")


def of_follow(trial: Trial, address: str, every: int) -> None:
    """The instruction of the event is in sight at each step, in both orders."""
    count = 0
    for name, left, right, step in FOLLOWED:
        trial.browser.visit(f"{address}#example={name}&A={left}&B={right}&by=event&at=0", SHOWN)
        many, lost = trial.browser.value(f"{SEEN}({step * every})")
        count += many
        width = trial.browser.size["width"]
        asked.want(f"out of sight, {width} wide, of {name}", lost[:12], [])
    asked.say(f"{trial.browser.size['width']} wide: {count} times the instruction of an event is in sight")


def of_stops(trial: Trial) -> None:
    """A long line, and what the page asks by itself, are over soon when they are stopped; then all is well."""
    browser = trial.browser
    load(browser, ENDLESS)
    browser.value("tab('command'), $('word').value = 'run', $('options').value = '--budget 4000000 --memory'")
    trial.want("nothing is at work", "$('stop').disabled", True)
    for name, act in (("the button", "$('stop').click()"), ("Esc", None)):
        browser.value("$('line').requestSubmit()")
        browser.wait("!$('stop').disabled")
        time.sleep(0.05)
        if act:
            browser.value(act)
        else:
            browser.key("Escape")
        browser.wait("$('stop').disabled && $('line-told').textContent.startsWith('stopped')")
        trial.want(f"{name} stops it", "$('line-out').textContent", "")
    browser.value(f"source.value = {ENDLESS!r} + ' ', changed(), run(), setTimeout(() => $('stop').click(), 50)")
    browser.wait("$('state').textContent === 'stopped' && $('stop').disabled")
    browser.value("tab('answer'), document.activeElement.blur(), load(DATA.text, DATA.name)")
    ran(browser)
    trial.want("well again", WORDS, "55 halt")


def of_lines(trial: Trial) -> None:
    """Lines of wsc, wsl and wss, with what a refusal says; the tab that is open stays open."""
    browser = trial.browser
    line = "document.querySelector('[data-tab=command]').click(), $('word').value = {0!r}, $('word').onchange(), " \
           "$('options').value = {1!r}, $('line').requestSubmit()"
    for word, options, part in (("run", "--stats", "55\nhalt\nfirings 143"), ("grid", "--elements 2 --stats", "cycles 79"),
                                ("check", "", "sound"), ("replay", "", "rest"), ("run", "--wrkers 2", "usage: wsc"),
                                ("wsl", "", "refused 1"), ("wss", "--stats", "55\nhalt\nfirings 143"),
                                ("wss", "--budget 5", "budget"), ("wss", "--workers 2", "usage: wss")):
        browser.value(line.format(word, options))
        browser.wait("$('line-told').textContent.includes('status')")
        trial.want(f"{word} {options}", f"$('line-out').textContent.includes({part!r})", True)
        browser.value("$('line-told').textContent = ''")
    load(browser, "proc main() { print 9; }")
    trial.want("the tab of lines stays", "$('command').hidden", False)
    browser.value("tab('answer')")


def of_files(trial: Trial, program: str, folder: pathlib.Path) -> None:
    """The text, its assembly and its traces are saved such that the program takes them."""
    browser = trial.browser
    browser.value("orders.B = 'grid-4-2', SIDES.forEach(chooser), load(DATA.text, DATA.name)")
    ran(browser)
    browser.ask("Browser.setDownloadBehavior", behavior="allow", downloadPath=str(folder))
    for ending, name, words, part in (("job", "sum.job", ["run"], "55\nhalt"), ("asm", "sum.asm", ["exec"], "55\nhalt"),
                                      ("A.trace", "sum-trace.trace", ["replay"], "rest"),
                                      ("B.trace", "sum-grid-4-2.trace", ["replay"], "rest")):
        browser.value(f"document.querySelector('#files summary').click(), document.querySelector('#files [value=\"{ending}\"]').click()")
        file, end = folder / name, time.monotonic() + PATIENCE
        while not file.exists() and time.monotonic() < end:
            time.sleep(0.05)
        answer = native(program, words, file.read_text())[:2] if file.exists() else "nothing"
        asked.want(f"{name} by wsc {words[0]}", answer[0] == 0 and part in answer[1], True)
    trial.want("the list of files is closed again", "$('files').open", False)


def of_lesson(trial: Trial, address: str) -> None:
    """The numbers that docs/LESSON.md tells, by the page alone."""
    browser = trial.browser
    rounds = "SIDES.map(it => frames[it].rounds())"
    ends = "goTo(most()), $('theorem').textContent"
    browser.visit(f"{address}#example=sum&A=trace&B=random-1&by=event&at=0", SHOWN)
    trial.want("two orders of sum", f"({ends}).startsWith('The same 231 events in two orders: at 25 places')", True)
    for n, many in ((3, 23), (10, 58), (100, 508)):
        browser.visit(address + "#example=sum&A=rounds&B=rounds&by=round&at=0", SHOWN)
        load(browser, (ROOT / "examples" / "sum.job").read_text().replace("\n10\n", f"\n{n}\n"))
        trial.want(f"rounds of sum, {n}", rounds, [many, many])
    for orders, wanted in (("A=grid-1-4&B=grid-2-4", [144, 79]), ("A=grid-4-4&B=grid-64-64", [58, 58])):
        browser.visit(f"{address}#example=sum&{orders}&by=round&at=0", SHOWN)
        trial.want(f"cycles of sum, {orders}", rounds, wanted)
    for orders, wanted in (("A=grid-4-1&B=grid-4-2", [44, 28]), ("A=grid-16-4&B=rounds", [28, 28])):
        browser.visit(f"{address}#example=squares&{orders}&by=round&at=0", SHOWN)
        trial.want(f"cycles of squares, {orders}", rounds, wanted)
    browser.visit(f"{address}#example=early&A=random-4&B=random-1&by=memory&at=0", SHOWN)
    loads = "SIDES.map(it => last.runs[SIDES.indexOf(it)].steps.filter(s => s.k === 'issue' && s.at).map(s => s.i))"
    trial.want("loads of early", loads, [[7, 8], [8, 7]])


def of_keyboard(trial: Trial, address: str) -> None:
    """Each control is reached by Tab, which leaves the text behind Esc."""
    browser = trial.browser
    browser.visit(f"{address}#example=sum", SHOWN)
    browser.value("document.activeElement.blur()")
    reached = set()
    for _ in range(TABS):
        if browser.value("document.activeElement === source"):
            browser.key("Escape")
        browser.key("Tab")
        reached.add(browser.value("(it => it.id || it.dataset.tab || it.title || it.getAttribute('aria-label') || it.parentNode.id)"
                                  "(document.activeElement)"))
    wanted = {"examples", "run", "two", "link", "files", "lesson", "ask", "source", "answer", "assembly", "command", "order A",
              "order B", "begin", "back", "play", "on", "end", "unit", "speed", "slide"}
    asked.want("not reached by Tab", sorted(wanted - reached), [])
    browser.value("$('slide').focus()")
    browser.key("ArrowRight")
    trial.want("a key steps both, whatever has the focus", BOTH, [1, 1])


def of_pages(trial: Trial, address: str, folder: pathlib.Path) -> None:
    """The lesson and the other pages: their links lead somewhere, their pictures are there, and what is printed."""
    browser = trial.browser
    examples = {name for name, _ in browser.value("DATA.examples")}
    for file in sorted(folder.glob("*.html")):
        if file.name in ("index.html", "frame.html"):
            continue
        browser.visit(address + file.name, "document.readyState === 'complete' && document.querySelector('main')")
        trial.want(f"{file.name} isn't wider than the screen", "document.documentElement.scrollWidth <= innerWidth", True)
        trial.want(f"pictures of {file.name}", "[...document.images].filter(it => !it.naturalWidth).length", 0)
        for link in browser.value("[...document.links].map(it => it.getAttribute('href'))"):
            path, _, place = link.partition("#")
            asked.want(f"{file.name} leads to {path}", not path or (folder / path).exists(), True)
            if path == "index.html" and place:
                told = dict(urllib.parse.parse_qsl(place))
                orders = [told[it] for it in "AB" if it in told]
                asked.want(f"{file.name} leads to {place[:60]}", ("text" in told or told["example"] in examples) and
                           all(map(is_order, orders)), True)
            elif place and path in ("", file.name):
                trial.want(f"{link} in {file.name}", f"!!document.getElementById({urllib.parse.unquote(place)!r})", True)
    for name, most in (("exercises", 1), ("answers", 1), ("slides", SLIDES)):
        browser.visit(f"{address}{name}.html", "document.readyState === 'complete' && document.querySelector('main')")
        sheets = len(re.findall(rb"/Type\s*/Page\b", browser.print()))
        asked.want(f"sheets of {name}", sheets, most)
    browser.value("scrollTo(0, 0)")
    browser.key("ArrowRight")
    browser.wait("scrollY > 100")
    browser.visit(f"{address}lesson.html", "document.readyState === 'complete' && document.querySelector('.code .open')")
    link = browser.value("document.querySelector('.code .open').href")
    browser.visit(link, SHOWN)
    trial.want("a program of the lesson is opened", WORDS, "55 halt")


def of_offline(trial: Trial, folder: pathlib.Path) -> None:
    """Once it was seen the page is there without its server, and works."""
    with Served(folder) as address:
        trial.browser.visit(address, SHOWN)
        trial.browser.value("navigator.serviceWorker.ready.then(it => it.active.state)")
        trial.browser.wait("navigator.serviceWorker.controller || navigator.serviceWorker.ready")
    trial.browser.visit(f"{address}#example=squares", SHOWN)
    trial.want("without its server", "[WORDS()]".replace("WORDS()", WORDS), ["1 256 6561 65536 halt"])
    trial.browser.value("tab('command'), $('word').value = 'wsl', $('options').value = '', $('line').requestSubmit()")
    trial.browser.wait("$('line-told').textContent.includes('status')")
    trial.browser.visit(f"{address}lesson.html", "document.querySelector('h1')")


def of_times(browser: Browser, address: str) -> None:
    """Says how soon there is something to be seen, and an answer, with nothing kept; on a machine that does other work too no
    bound could be asked for."""
    browser.visit(address, SHOWN)
    paint, answered = browser.value("[performance.getEntriesByName('first-contentful-paint')[0].startTime, window.answeredAt || 0]")
    sizes = browser.value("performance.getEntriesByType('resource').reduce((sum, it) => sum + it.encodedBodySize, 0)")
    asked.say(f"first paint {paint:.0f} ms, first answer {answered:.0f} ms, {sizes:,} bytes fetched by the page itself")


@pytest.mark.usefixtures("chromium")
def test_wide(site: pathlib.Path, wsc: str, every: int, tmp_path: pathlib.Path) -> None:
    """All that is tried on a wide screen."""
    def tried() -> None:
        with Served(site) as address, Browser(*WIDE) as browser:
            of_times(browser, address)
            trial = Trial(browser)
            of_all(trial, address)
            browser.visit(f"{address}#example=sum", SHOWN)
            of_examples(trial, wsc, every)
            of_stops(trial)
            of_lines(trial)
            of_files(trial, wsc, tmp_path)
            of_lesson(trial, address)
            of_keyboard(trial, address)
            of_follow(trial, address, every)
            browser.visit(address, SHOWN)
            of_pages(trial, address, site)
            of_offline(trial, site)
            trial.end()

    again(tried)


@pytest.mark.usefixtures("chromium")
@pytest.mark.parametrize("size", (NARROW, LARGE), ids=("phone", "large"))
def test_other(site: pathlib.Path, size: tuple[int, int], every: int) -> None:
    """What is tried on a screen of another size."""
    def tried() -> None:
        with Served(site) as address, Browser(*size, mobile=size == NARROW) as browser:
            trial = Trial(browser)
            if size == NARROW:
                of_narrow(trial, address)
            of_follow(trial, address, every)
            trial.want("nothing is wider than the screen", "document.documentElement.scrollWidth <= innerWidth", True)
            trial.end()

    again(tried)


def test_strangers(site: pathlib.Path) -> None:
    """Nothing but files of the site was asked for."""
    names = {it.name for it in site.iterdir()} | {"", "favicon.ico", "trial_of_answers.html", "trial_of_scripts.html"}
    asked.want("files that aren't there", sorted({it for it in Quiet.asked if urllib.parse.urlsplit(it).path.lstrip("/") not in names}), [])
