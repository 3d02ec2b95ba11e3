"""A drawing that stands alone (`viewer/still.py`) and the viewer's page show the same: waves, blocks, instructions, arcs."""

from __future__ import annotations

import pathlib
from typing import Any
from xml.etree import ElementTree

import pytest

from tests.browser import Browser
from tests.places import EXAMPLES, compiled
from wavescalar.numbered import read
from wavescalar.viewer.still import CLASSES, picture
from wavescalar.viewer.view import page

# Each shape that a drawing is made of: what draws it, and its numbers, rounded to a tenth of a unit.
SHAPES = """
[...document.querySelectorAll('#still rect, #still path, #still text')].map(it => [
  it.tagName, (it.getAttribute('class') || it.parentNode.getAttribute('class') || '').trim(),
  it.tagName === 'text' ? it.textContent.trim() : '',
  it.tagName === 'path' ? it.getAttribute('d') : ['x', 'y', 'width', 'height'].map(key => it.getAttribute(key)).join(' '),
])
"""
SVG = "{http://www.w3.org/2000/svg}"
Shape = tuple[str, str, str, tuple[float, ...]]


def numbers(told: str) -> tuple[float, ...]:
    """The numbers of a path or of a place, to a tenth; letters stand between them."""
    for mark in "MCLQVHZz,":
        told = told.replace(mark, " ")
    return tuple(round(float(word), 1) for word in told.split() if word not in ("null", "None"))


def kind_of(told: str) -> str:
    """The classes of what stands still; the page adds those of what a step lights."""
    return " ".join(word for word in told.split() if word in CLASSES)


def shapes_of(svg: str) -> list[Shape]:
    """Those of a drawing that stands alone."""
    root = ElementTree.fromstring(svg)
    above = {child: parent for parent in root.iter() for child in parent}
    made: list[Shape] = []
    for it in root.iter():
        name = it.tag.removeprefix(SVG)
        if name not in ("rect", "path", "text") or above[it].tag == f"{SVG}marker":
            continue
        kind = it.get("class") or above[it].get("class") or ""
        told = "".join(it.itertext()).strip() if name == "text" else ""
        place = it.get("d", "") if name == "path" else " ".join(str(it.get(key)) for key in ("x", "y", "width", "height"))
        made.append((name, kind_of(kind), told, numbers(place)))
    return made


def alike(one: tuple[float, ...], other: tuple[float, ...]) -> bool:
    """Whether two places are the same but for rounding."""
    return len(one) == len(other) and all(abs(a - b) < 0.11 for a, b in zip(one, other))


@pytest.mark.usefixtures("chromium")
def test_one_drawing(tmp_path: pathlib.Path) -> None:
    with Browser(1280, 720) as browser:
        for name in ("sum", "order", "calls"):
            text = compiled((EXAMPLES / f"{name}.job").read_text())
            assert text
            file = tmp_path / f"{name}.html"
            file.write_text(page(text + "%trace\n" if "%input" in text else f"{text}%input\n%trace\n", name, 10))
            browser.open(str(file))
            found: list[list[Any]] = browser.value(SHAPES)
            shown = sorted((it[0], kind_of(it[1]), it[2], numbers(it[3])) for it in found)
            alone = sorted(shapes_of(picture(read(text))))
            assert [it[:3] for it in shown] == [it[:3] for it in alone], name
            assert len(shown) > 20 and any(it[1].startswith("arc") for it in shown) and any(it[1].startswith("node") for it in shown)
            for one, other in zip(shown, alone):
                assert alike(one[3], other[3]), (name, one, other)
