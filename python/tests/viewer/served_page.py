"""Tries the page of wsc-serve in Chromium: edits, refusals, steps, two orders, clicks, links, two tabs, a narrow screen."""

from __future__ import annotations

import signal
import subprocess
import sys

from tests import asked
from tests.browser import Browser
from tests.places import LIBRARY
from tests.viewer.trial import Trial

SHOWN = "$('state').textContent.startsWith('told') && ready().length === 2"
# What is in the text, and in the marks over it.
TEXT, BAD = "source.value", "[...document.querySelectorAll('#marks .bad')].map(it => it.textContent).join('|')"
ENDS = "goTo(most()), $('theorem').className + ': ' + $('theorem').textContent"
WORDS = "document.querySelector('#answer .words').textContent.trim()"
BOTH = "SIDES.map(it => frames[it].at())"
# What is lit in the text.
LIT = "[...document.querySelectorAll('#marks .lit')].map(it => it.textContent).join('|')"
# How an edit of the text comes to its result, in milliseconds: it is asked at once, without the pause for typing.
EDIT = """(async () => {
  const times = [];
  for (let k = 0; k < 5; k++) {
    const begun = performance.now();
    source.value = source.value.replace(/\\n\\d+\\n?$/, `\\n${k + 3}\\n`);
    changed();
    await run();
    times.push(performance.now() - begun);
  }
  return Math.min(...times);
})()"""
# Steps of both orders, to so many places.
STEPS = 50
STEP = f"for (let k = 0; k < {STEPS}; k++) goTo(k * 4)"


class Served:
    """The server, to be used by `with`."""

    def __init__(self, program: str):
        line = [sys.executable, str(LIBRARY / "wsc-serve"), "--port", "0", "--wsc", program, "--seconds", "60"]
        self.child = subprocess.Popen(line, stdout=subprocess.PIPE, text=True)
        assert self.child.stdout
        self.out = self.child.stdout
        self.address = self.out.readline().split()[0]

    def __enter__(self) -> Served:
        return self

    def __exit__(self, *_: object) -> None:
        self.child.send_signal(signal.SIGINT)
        self.child.wait(30)
        self.out.close()


def ran(browser: Browser) -> None:
    """Waits until what was asked last is answered."""
    browser.wait("!timer && ($('state').textContent.startsWith('told') || $('state').textContent === '')")


def put(browser: Browser, place: int, many: int, text: str) -> None:
    """Writes a text over so many characters at a place, as a hand does."""
    browser.value(f"source.focus(), source.setSelectionRange({place}, {place} + {many})")
    browser.type(text)
    ran(browser)


def load(browser: Browser, text: str, name: str = "a.job") -> None:
    """Puts another text into the editor, and has it run."""
    browser.value(f"load({text!r}, {name!r})")
    ran(browser)


def of_edits(trial: Trial) -> None:
    """A text is refused at its place, and mended; keys of the editor."""
    browser, value = trial.browser, trial.browser.value
    trial.want("printed", WORDS, "55 halt")
    at = value("source.value.indexOf('print s')")
    put(browser, at, 7, "print t")
    trial.want("refused", "document.querySelector('#answer .bad').textContent", "refused 8:9 unknown")
    trial.want("the place", BAD, "t")
    trial.want("its line", "document.querySelector('#numbers b').textContent", "8")
    trial.want("why", "$('answer').textContent.includes('no such name')", True)
    trial.want("the old run is dimmed", "$('sides').classList.contains('stale')", True)
    value("$('there').click()")
    trial.want("to the place", "source.value.slice(source.selectionStart, source.selectionEnd)", "t")
    put(browser, at, 7, "print s + i")
    trial.want("mended", WORDS, "65 halt")
    trial.want("dimmed no more", "$('sides').classList.contains('stale')", False)
    value("source.focus(), source.setSelectionRange(13, 13)")
    browser.key("Enter")
    browser.key("Tab")
    trial.want("Enter and Tab", "source.value.split('\\n')[1]", "    ")
    browser.key("Tab", shift=True)
    trial.want("Shift Tab", "source.value.split('\\n')[1]", "  ")
    browser.key("/", ctrl=True)
    browser.type("x")
    browser.key("/", ctrl=True)
    trial.want("Ctrl /", "source.value.split('\\n')[1]", "  # x")
    value("document.execCommand('undo'), document.execCommand('undo')")
    trial.want("undone", "source.value.split('\\n')[1].includes('#')", False)
    ran(browser)


def of_steps(trial: Trial) -> None:
    """Both go on together, by event, by statement and by round."""
    browser, value = trial.browser, trial.browser.value
    value("document.activeElement.blur(), load(DATA.text, DATA.name)")
    ran(browser)
    value("goTo(0)")
    for key, shift, wanted in (("ArrowRight", False, [1, 1]), ("ArrowRight", True, [11, 11]),
                               ("ArrowLeft", False, [10, 10]), ("End", False, [231, 231]), ("Home", False, [0, 0])):
        browser.key(key, shift)
        trial.want(f"{key} in both", BOTH, wanted)
    value("goTo(60)")
    browser.key("s")
    trial.want("by statement", "frames.A.now().exact === 1 && frames.A.at() > 60", True)
    trial.want("and B with it", "frames.B.at() === frames.A.at()", True)
    trial.want("marked in the text", "document.querySelectorAll('#marks .A').length > 0", True)
    value("$('A').querySelector('iframe').contentWindow.go(77)")
    trial.want("a page that moves takes the other along", BOTH, [77, 77])
    value("$('play').click()")
    trial.want("plays", "ticking !== null", True)
    browser.wait("place > 78")
    value("$('play').click()")
    trial.want("stops", "ticking", None)
    value("tab('assembly'), goTo(100)")
    trial.want("the line of A", "document.querySelectorAll('#assembly .A').length", 1)
    trial.want("the line of B", "document.querySelectorAll('#assembly .B').length", 1)
    value("tab('answer')")
    browser.key("?")
    trial.want("help", "$('help').hidden", False)
    trial.want("as a whole", "$('help').scrollHeight <= $('help').clientHeight && "
               "$('help').getBoundingClientRect().bottom <= innerHeight", True)
    browser.key("Escape")
    trial.want("no help", "$('help').hidden", True)


def of_clicks(trial: Trial) -> None:
    """A statement of the text, a line of the assembly or an instruction lights what belongs to it, in both."""
    browser, value = trial.browser, trial.browser.value
    lit = "SIDES.map(it => $(it).querySelector('iframe').contentDocument.querySelectorAll('.node.of').length)"
    value("source.scrollIntoView(), goTo(0)")
    # the fifth line, at its sixth character
    x, y = value("(it => [it.left + 10 + 5.5 * 7.8, it.top + 6 + 19.5 * 4.5])(source.getBoundingClientRect())")
    browser.click(x, y)
    trial.want("a click on a statement", LIT, "i = i + 1;")
    trial.want("its instructions, in both", f"(it => it[0] > 1 && it[0] === it[1])({lit})", True)
    value("document.activeElement.blur()")
    browser.key("s")
    trial.want("s goes to its firing", "frames.A.now().marks.some(([from]) => source.value.slice(from, from + 9) === "
               "'i = i + 1') && frames.A.at() > 0", True)
    x, y = value("(it => [it.left + 10 + 1, it.top + 6 + 19.5 * 8.5])(source.getBoundingClientRect())")
    browser.click(x, y)
    trial.want("a click beside all", f"{LIT} + {lit}", "0,0")
    value("tab('assembly'), [...$('assembly').children].find(it => it.textContent.startsWith('14: add')).click()")
    trial.want("a line lights its statement", LIT, "s = s + i;")
    value("tab('answer'), $('B').querySelector('iframe').contentWindow.light(12)")
    trial.want("an instruction of B is lit in A", "frames.A.lit()", 12)
    value("choose(null, null)")
    trial.want("nothing is lit", LIT, "")


def of_orders(trial: Trial) -> None:
    """Two orders of one program, with the same words."""
    browser = trial.browser
    trial.want("the end", f"({ENDS}).includes('Both print 55: the same words as the sequential run.')", True)
    trial.want("it is green", "$('theorem').className", "same")
    for left, right in (("rounds", "random-7"), ("grid-4-2", "grid-1-1"), ("trace", "random-12")):
        browser.value(f"orders.A = '{left}', orders.B = '{right}', SIDES.forEach(chooser), run()")
        ran(browser)
        trial.want(f"{left} and {right}", f"({ENDS}).startsWith('same: The same 231 events in two orders')", True)
        trial.want("both are replayed", "[...document.querySelectorAll('.note')].filter(it => "
                   "it.textContent.includes('✓ replayed')).length", 2)
        trial.want("a wave has one colour in both",
                   "[...Array(12).keys()].every(w => frames.A.colour(w) === frames.B.colour(w))", True)
    browser.value("orders.A = 'rounds', orders.B = 'grid-2-1', SIDES.forEach(chooser), run()")
    ran(browser)
    browser.value("$('unit').value = 'round', unitChanged(), goTo(10)")
    trial.want("ten rounds and cycles", "SIDES.map(it => frames[it].round())", [10, 10])
    trial.want("at other events", "frames.A.at() !== frames.B.at()", True)
    trial.want("those are more cycles", "frames.B.rounds() > frames.A.rounds()", True)
    browser.value("$('unit').value = 'event', unitChanged(), $('two').click()")
    browser.wait("ready().length === 1")
    browser.value("$('two').click()")
    browser.wait("ready().length === 2")
    trial.want("two again, at one place", "frames.A.at() === frames.B.at()", True)


def of_links(trial: Trial, address: str) -> None:
    """Text, orders and place are in the address: after a reload, and in another tab to which it was sent."""
    browser, value = trial.browser, trial.browser.value
    load(browser, "proc main() { print 7; print 8; }", "seven.job")
    value("orders.B = 'rounds', SIDES.forEach(chooser), run()")
    ran(browser)
    value("goTo(9), keepNow()")
    link = value("location.href")
    browser.visit(link, SHOWN)
    trial.want("after a reload", TEXT, "proc main() { print 7; print 8; }")
    trial.want("its words", WORDS, "7 8 halt")
    trial.want("its place", BOTH, [9, 9])
    trial.want("its order", "orders.B", "rounds")
    trial.want("its name", "file", "seven.job")
    value("location.hash = '#example=squares&A=grid-4-2&B=trace&by=round&at=5'")
    browser.wait("source.value.includes('x * x') && $('state').textContent.startsWith('told')")
    trial.want("an example by its name, at a cycle", "[orders.A, $('unit').value, frames.A.round()]",
               ["grid-4-2", "round", 5])
    for bad in ("#text=%%%", "#text=A&A=grid-0-0&by=year&at=-3", "#example=none&B=random-99999999999", "#A=__proto__"):
        value(f"location.hash = {bad!r}")
        browser.wait("$('state').textContent.startsWith('told') || $('answer').textContent.includes('refused')")
        trial.want(f"an address that is none: {bad}", "isOrder(orders.A) && isOrder(orders.B) && place >= 0", True)
    browser.visit(f"{address}#example=sum", SHOWN)
    load(browser, "proc main() { while (1) { print 1; } }", "endless.job")
    trial.want("endless", "$('answer').textContent.includes('budget')", True)
    trial.want("its end", f"({ENDS}).slice(0, 36)", "same: Only the first events are shown"[:36])
    load(browser, "array a[1]; proc main() { print 3; a[1] = 2; }", "fault.job")
    trial.want("a fault", f"({ENDS}).includes('Both print 3, and end with fault a')", True)


def of_tabs(trial: Trial, address: str) -> None:
    """Another tab begins with the text that was edited last, and then each has its own."""
    browser, first = trial.browser, trial.browser.session
    load(browser, "proc main() { print 1; }", "one.job")
    browser.value("keepNow()")
    second = browser.tab()
    browser.visit(address, SHOWN)
    trial.want("another tab begins with the last text", TEXT, "proc main() { print 1; }")
    load(browser, "proc main() { print 2; }", "two.job")
    browser.session = first
    browser.value("run()")
    browser.session = second
    ran(browser)
    trial.want("the second", WORDS, "2 halt")
    browser.session = first
    ran(browser)
    trial.want("the first", WORDS, "1 halt")
    browser.visit(browser.value("location.href"), SHOWN)
    trial.want("the first after a reload", TEXT, "proc main() { print 1; }")


def of_bounds(trial: Trial) -> None:
    """What isn't taken is told."""
    trial.browser.value("load('#'.repeat(70000), 'long.job')")
    trial.browser.wait("$('answer').textContent.includes('at most 65536')")
    trial.browser.value("orders.A = 'nothing', load(DATA.text, DATA.name)")
    trial.browser.wait("$('answer').textContent.includes('no such order')")
    trial.browser.value("orders.A = 'trace', SIDES.forEach(chooser), run()")
    ran(trial.browser)
    trial.want("well again", "ready().length", 2)


def of_all(trial: Trial, address: str) -> None:
    """All of it; says how long an edit and a step take."""
    trial.browser.visit(address, SHOWN)
    for act in (of_edits, of_steps, of_clicks, of_orders):
        act(trial)
    of_links(trial, address)
    of_tabs(trial, address)
    of_bounds(trial)
    trial.want("nothing is wider than the screen", "document.documentElement.scrollWidth <= innerWidth", True)
    trial.want("nor higher", "document.documentElement.scrollHeight <= innerHeight", True)
    trial.browser.visit(f"{address}#example=sum", SHOWN)
    edit, begun = trial.browser.value(EDIT), trial.browser.worked()
    trial.browser.value(STEP)
    step = 1000 * (trial.browser.worked() - begun) / STEPS
    asked.say(f"the page of wsc-serve: from an edit of sum to its two orders {edit:.0f} ms by the clock, a step of both "
              f"{step:.1f} ms of processor")


def of_narrow(trial: Trial, address: str) -> None:
    """On a narrow screen."""
    trial.browser.visit(address, SHOWN)
    trial.want("nothing is wider than a narrow screen", "document.documentElement.scrollWidth <= innerWidth", True)
    trial.want("the controls are in sight", "$('on').getBoundingClientRect().bottom <= innerHeight", True)
    trial.browser.value("goTo(0), $('on').click(), $('on').click()")
    trial.want("the buttons step both", BOTH, [2, 2])
    trial.browser.value("help()")
    trial.want("help fits", "$('help').getBoundingClientRect().right <= innerWidth", True)
