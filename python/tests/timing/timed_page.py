"""Tries the page of a timed run in Chromium: keys, buttons, slider, and what the page complains of."""

from __future__ import annotations

import pathlib

from tests.asked import want
from tests.browser import Browser

# What is done, by a key or by a script, and what then holds.
STEPS = (
    ("", "cycle === 200 && document.getElementById('count').textContent.startsWith('cycle 200 of ')"),
    ("ArrowRight", "cycle === 201"), ("ArrowLeft", "cycle === 200"),
    ("ArrowDown", "cycle === moments[from(moments, 201)] && document.querySelectorAll('.fired').length > 0"),
    ("ArrowUp", "cycle < 201"), ("PageDown", "data.bounds.some((piece) => piece[0] === cycle)"),
    ("w", "document.querySelectorAll('.flight').length === data.traffic.length"), ("w", "!allWays"),
    ("h", "soFar && document.getElementById('so-far').classList.contains('on')"), ("h", "!soFar"),
    ("?", "document.getElementById('help').classList.contains('on')"), ("?", "true"),
    ("Home", "cycle === 1"), ("End", "cycle === data.cycles && cycle === +document.getElementById('slider').value"),
    ("document.querySelectorAll('.element')[0].dispatchEvent(new MouseEvent('click'))",
     "document.getElementById('element').textContent.startsWith('0: busy')"),
    ("document.querySelector('#parts tr').click()", "document.querySelector('#parts tr').classList.contains('at')"),
    ("slider.value = 7; slider.dispatchEvent(new Event('input'))", "cycle === 7"),
)


def tried(file: pathlib.Path) -> None:
    """Tries the page of a run of more than 201 cycles."""
    with Browser(1280, 800) as browser:
        browser.open(f"{file}#cycle=200")
        for what, holds in STEPS:
            if len(what) > 12:
                browser.value(f"(() => {{ {what} }})()")
            elif what:
                browser.key(what)
            want(f"the page, after {what or 'it is opened'}: {holds}", browser.value(holds), True)
        want("what the page complains of", browser.complaints, [])
