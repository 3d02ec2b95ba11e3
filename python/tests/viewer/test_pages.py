"""Pages in Chromium, without a window.

Keys, buttons, slider, statements, zoom by wheel and by fingers, drag, print, a narrow screen; colours of wave numbers; the
ready pages of docs/pages; how long a page of 20,000 events takes for a step to any place; and the page of wsc-serve, by
served_page.py.
"""

import pathlib
import re
from typing import Callable

import pytest

from tests import asked
from tests.browser import Browser, Ended
from tests.places import EXAMPLES, ROOT
from tests.viewer import served_page
from tests.viewer.trial import Trial
from wavescalar.programs import traced
from wavescalar.viewer.view import Way, page

LONG = "proc main() { var i, s; while (i < 4000) { i = i + 1; s = s + i; } print s; }\n"
# Turns that take longer than the next one needs to begin, so that many are on their way at once.
MANY = "proc main() { var i, x; while (i < 40) { x = i; " + "x = x * x; " * 90 + "i = i + 1; } print x; }\n"
# A step takes so many milliseconds of processor at most, which no one sees as a pause; tried are steps to these events.
PAUSE, PLACES = 100, [20000, 1, 19999, 10000, 9999, 400, 15000, 14999, 7, 12345, 12344, 3]
# The most sheets of paper for a job of eight waves.
SHEETS = 2
SCREENS = ((1400, 900), (1366, 768), (1024, 768))
READY = sorted((ROOT / "docs" / "pages").glob("*.html"))

# Goes to some events, and compares what is told there with what is told when all events are made from the first.
ANEW = """(() => {
  for (const to of [231, 230, 5, 199, 7]) {
    go(to);
    const told = $('side').innerHTML;
    state = opening();
    at = 0;
    while (at < to) make(state, S[at++]);
    paint();
    if ($('side').innerHTML !== told) return to;
  }
  return 'same';
})()"""
# Goes through all events; how often two wave numbers that are seen have one colour and aren't numbered, and the most
# wave numbers that are seen at once.
COLOURED = """(() => {
  const it = opening();
  let wrong = 0, most = 0;
  for (let to = 0; to <= S.length; to++) {
    if (to) make(it, S[to - 1]);
    const all = [...it.way.values(), ...it.ports.values(), ...it.asks.values()].map(one => one.w);
    const waves = [...new Set([...all, it.chain[0]])], seen = {};
    most = Math.max(most, waves.length);
    for (const w of waves) {
      const k = colour(w);
      if (seen[k] !== undefined && !(COLOURS.numbered.has(w) && COLOURS.numbered.has(seen[k]))) wrong++;
      seen[k] = w;
    }
  }
  return [wrong, most];
})()"""


def of_keys(trial: Trial, file: str) -> None:
    """Keys and buttons."""
    press, value = trial.browser.key, trial.browser.value
    trial.browser.open(f"{file}#event=10")
    trial.at("opened", 10)
    for key, shift, wanted in (("ArrowRight", 0, 11), ("ArrowRight", 1, 21), ("ArrowLeft", 0, 20),
                               ("ArrowLeft", 1, 10), ("End", 0, 231), ("Home", 0, 0)):
        press(key, bool(shift))
        trial.at(key, wanted)
    press("PageDown")
    trial.want("Page Down", "S[at - 1].k", "issue")
    press("ArrowDown")
    trial.want("Arrow Down", "!!(S[at - 1].full || S[at - 1].k === 'issue')", True)
    press("PageUp")
    press("2")
    trial.want("wave 2", "shown", 2)
    press("0")
    trial.want("all waves", "shown", None)
    press("m")
    trial.want("wave order", "still.classList.contains('no-order')", True)
    press("f")
    trial.want("follow", "follow", True)
    press(" ")
    trial.want("plays", "timer !== null", True)
    press(" ")
    trial.want("stops", "timer === null", True)
    value("$('begin').click()")
    value("$('on').click()")
    trial.at("the button on", 1)
    value("$('slide').value = 120; $('slide').dispatchEvent(new Event('input'))")
    trial.at("the slider", 120)
    trial.want("the count", "$('count').textContent", "event 120 of 231")
    value("go(231)")
    trial.want("printed", "$('printed').textContent", "55")
    trial.want("as made anew", ANEW, "same")


def of_steps(trial: Trial, file: str) -> None:
    """Steps by statement, the speed, and the address."""
    press, value = trial.browser.key, trial.browser.value
    trial.browser.open(f"{file}#event=120")
    press("s")
    trial.want("another statement", "exactly(S[at - 1].i) !== '' && exactly(S[at - 1].i) !== exactly(S[119].i)", True)
    value("window.before = at")
    press("S", True)
    trial.want("back", "at < before", True)
    value("go(120); window.before = $('speed').selectedIndex")
    press(">", True)
    trial.want("faster", "$('speed').selectedIndex - before", 1)
    value("location.hash = '#event=33'")
    trial.browser.wait("at === 33")
    press("ArrowRight")
    trial.browser.wait("location.hash.includes('event=34')")
    trial.want("numbers aren't broken", "getComputedStyle($('printed')).wordBreak", "normal")


def of_help(trial: Trial, file: str) -> None:
    """The table of keys is seen as a whole on the screens of a projector."""
    trial.browser.open(file)
    trial.browser.key("?")
    trial.want("help", "$('help').classList.contains('on')", True)
    for width, height in SCREENS:
        trial.browser.resize(width, height)
        trial.want(f"help at {width}x{height}", "(it => it.top >= 0 && it.bottom <= innerHeight && it.left >= 0)"
                   "($('help').getBoundingClientRect()) && $('help').scrollHeight <= $('help').clientHeight", True)
    trial.browser.key("Escape")
    trial.want("no help", "$('help').classList.contains('on')", False)
    trial.browser.resize(1280, 720)


def of_statements(trial: Trial, file: str) -> None:
    """A statement is marked with its instruction, and lights its instructions."""
    trial.browser.open(file)
    marked = "[...document.querySelectorAll('#job .at')].map(it => it.textContent)"
    trial.browser.value("go(S.findIndex(s => s.i === 14) + 1)")
    trial.want("the statement", marked, ["s = s + i;"])
    trial.browser.value("spanOf[2].click()")
    trial.want("its instructions", "instrsOf[1].filter(i => SAID[i][1])", [7, 8, 9, 10, 11])
    trial.want("those lit", "document.querySelectorAll('.node.of').length > 0", True)
    trial.browser.value("go(0)")
    trial.browser.key("s")
    trial.want("to its firing", "exactly(S[at - 1].i).split(',').includes('2')", True)
    trial.browser.value("spanOf[2].click()")
    trial.want("lit no more", "document.querySelectorAll('.node.of').length", 0)


def of_grid(trial: Trial, file: str) -> None:
    """Elements of a grid, cycle by cycle."""
    trial.browser.open(file)
    trial.browser.key("r")
    trial.want("the first cycle", "at && S[at - 1].cycle", 1)
    trial.browser.key("r")
    trial.want("the second one", "S[at - 1].cycle", 2)
    trial.browser.key("R", shift=True)
    trial.want("back in the first", "S[at - 1].cycle", 1)
    fired = "document.querySelectorAll('#elements .fired').length"
    for cycle in (3, 9, 20):
        trial.browser.value(f"go(begins[{cycle} + 1])")
        trial.want(f"fired in cycle {cycle}", fired, trial.browser.value(f"busy[{cycle}] || 0"))
    trial.want("elements", "$('elements').children.length", 4)
    trial.want("firings", "busy.reduce((a, b) => a + (b || 0), 0)", trial.browser.value("go(S.length), state.fired"))


def of_hand(trial: Trial, file: str) -> None:
    """Drag and wheel."""
    trial.browser.open(file)
    trial.browser.value("setFollow(false); window.before = [...box]")
    trial.browser.drag(600, 300, 660, 330)
    trial.want("a drag moves", "Math.round((before[0] - box[0]) / scale())", 60)
    trial.want("a drag keeps the size", "box[2] === before[2]", True)
    trial.browser.ask("Input.dispatchMouseEvent", type="mouseWheel", x=600, y=300, deltaX=0, deltaY=-100)
    trial.want("the wheel zooms", "box[2] < before[2]", True)


def of_colours(trial: Trial, file: str, more: bool) -> None:
    """No two wave numbers that are seen at once look alike; whether there are more of them than colours is known."""
    trial.browser.open(file)
    wrong, most = trial.browser.value(COLOURED)
    asked.want(f"of {most} wave numbers at once two look alike", wrong, 0)
    asked.want(f"more wave numbers than colours: {most}", most > trial.browser.value("MANY_COLOURS"), more)
    trial.want("those are numbered", "COLOURS.numbered.size > 0", more)


def of_print(trial: Trial, file: str) -> None:
    """A job of eight waves, with its state, its text and its assembly, on few sheets."""
    trial.browser.open(f"{file}#event=900")
    sheet = trial.browser.print()
    asked.want("what is printed", sheet[:4], b"%PDF")
    many = len(re.findall(rb"/Type\s*/Page\b", sheet))
    asked.want(f"{many} sheets are too many", 0 < many <= SHEETS, True)


def of_fingers(trial: Trial, file: str) -> None:
    """One finger moves, two zoom, on a narrow screen."""
    touch = trial.browser.touch
    trial.browser.open(file)
    trial.browser.value("setFollow(false); window.before = [...box]")
    touch("touchStart", (200, 300))
    touch("touchMove", (230, 320))
    touch("touchEnd")
    trial.want("a finger moves", "Math.round((before[0] - box[0]) / scale())", 30)
    touch("touchStart", (150, 300), (250, 300))
    touch("touchMove", (100, 300), (300, 300))
    touch("touchEnd")
    trial.want("two fingers zoom", "Math.round(10 * before[2] / box[2])", 20)
    trial.want("nothing is wider than the screen", "document.documentElement.scrollWidth <= innerWidth", True)


def of_ready(trial: Trial) -> None:
    """Each page of docs/pages is drawn."""
    for file in READY:
        trial.browser.open(str(file))
        trial.browser.wait("document.querySelector('#on') && (window.viewer ? S.length : ready().length === 2)")
        trial.browser.value("$('end').click()")
        trial.want(f"{file.name} at its end", "$('slide').value === $('slide').max && +$('slide').max > 50", True)


def of_long(trial: Trial, file: str) -> str:
    """Steps to any place of a long page; how long they take, in words."""
    trial.browser.open(file)
    begun = trial.browser.worked()
    trial.browser.value(f"for (const to of {PLACES}) {{ go(to); document.body.offsetHeight; }}")
    took = 1000 * (trial.browser.worked() - begun) / len(PLACES)
    asked.want(f"a step of {took:.0f} ms", took > PAUSE, False)
    return f"a page of 20,000 events: a step to any place takes {took:.0f} ms of processor on the mean"


def again(act: Callable[[], None]) -> None:
    """Tries something; once more where the browser itself ended, as it may on a machine that has much else to do."""
    try:
        act()
    except Ended as fault:
        asked.say(f"{fault}; tried once more")
        act()


def made(program: str, folder: pathlib.Path, name: str, job: str, way: Way = "trace") -> str:
    """A page of wsc-view."""
    file = folder / f"{name}.html"
    file.write_text(page(traced(program, job), name, 20000, job, program, way))
    return str(file)


@pytest.mark.usefixtures("chromium")
def test_pages(wsc: str, tmp_path: pathlib.Path) -> None:
    """The pages of wsc-view and of docs/pages, and how long a step takes."""
    sum_job, matrix = ((EXAMPLES / f"{name}.job").read_text() for name in ("sum", "matrix"))
    short, grid, large = (made(wsc, tmp_path, "sum", sum_job), made(wsc, tmp_path, "grid", sum_job, (4, 2)),
                          made(wsc, tmp_path, "matrix", matrix))
    many, long = made(wsc, tmp_path, "many", MANY, "rounds"), made(wsc, tmp_path, "long", LONG)

    def on_a_screen() -> None:
        with Browser(1280, 720) as browser:
            trial = Trial(browser)
            for act in (of_keys, of_steps, of_help, of_statements, of_hand):
                act(trial, short)
            of_grid(trial, grid)
            of_colours(trial, grid, False)
            of_colours(trial, many, True)
            of_print(trial, large)
            of_ready(trial)
            asked.say(of_long(trial, long))
            trial.end()

    def on_a_phone() -> None:
        with Browser(390, 800, mobile=True) as browser:
            trial = Trial(browser)
            of_fingers(trial, short)
            trial.end()

    again(on_a_screen)
    again(on_a_phone)


@pytest.mark.usefixtures("chromium")
@pytest.mark.parametrize("width, height, is_mobile", ((1366, 768, False), (390, 844, True)), ids=("wide", "phone"))
def test_served(wsc: str, width: int, height: int, is_mobile: bool) -> None:
    """The page of wsc-serve, and how long an edit takes."""
    def tried() -> None:
        with served_page.Served(wsc) as served, Browser(width, height, mobile=is_mobile) as browser:
            trial = Trial(browser)
            (served_page.of_narrow if is_mobile else served_page.of_all)(trial, served.address)
            trial.end()

    again(tried)
