"""The drawing of an image as SVG: waves, blocks, instructions, arcs and the wave order, without tokens.

The page of the viewer puts these parts into its own drawing, and finds instructions and arcs again by `data-node` and
`data-arc`. `picture` makes a drawing that stands alone, with the rules of page.css that concern it.
"""

from __future__ import annotations

import functools
import pathlib
import re
from collections.abc import Iterator
from html import escape
from typing import Any

from wavescalar.numbered import Image
from wavescalar.viewer.waves import Drawing, drawing

# The classes of what is drawn here; of the rules of page.css those count in which each class is one of them.
CLASSES = {"wave", "wave-name", "block", "block-name", "block-exit", "node", "pad", "stub", "arc", "order", "way", "note",
           "n", "op", "steer", "phi", "merge", "advance", "send", "const", "memory", "alu", "select"}
RULE = re.compile(r"([^{}]+)\{([^{}]*)\}")
FAMILY = '"DejaVu Sans", "Segoe UI", Verdana, sans-serif'
EDGE = 14  # units around what is shown


def element(name: str, attributes: dict[str, Any], inner: str = "") -> str:
    """An element of SVG; numbers keep what a drawing needs of their digits."""
    told = "".join(f' {key}="{escape(_told(value))}"' for key, value in attributes.items())
    return f"<{name}{told}>{inner}</{name}>" if inner else f"<{name}{told}/>"


def _told(value: Any) -> str:
    return f"{value:.1f}".removesuffix(".0") if isinstance(value, float) else str(value)


def _text(attributes: dict[str, Any], told: str) -> str:
    return element("text", attributes, escape(told, quote=False))


def _frames(drawn: Drawing) -> Iterator[str]:
    for number, x, y, width, height in drawn["waves"]:
        yield element("rect", {"class": "wave", "x": x, "y": y, "width": width, "height": height, "rx": 12})
        yield _text({"class": "wave-name", "x": x + 16, "y": y + 27}, f"wave {number}")
    for name, x, y, width, height, leads in drawn["blocks"]:
        yield element("rect", {"class": "block", "x": x, "y": y, "width": width, "height": height, "rx": 8})
        yield _text({"class": "block-name", "x": x + 9, "y": y + 18}, name)
        yield _text({"class": "block-exit", "x": x + 9, "y": y + height - 8}, leads)


def _order(one: tuple[float, float, float], other: tuple[float, float, float]) -> str:
    """The line from a memory operation to one that follows it: each by its middle and its width."""
    (x, y, wide), (to_x, to_y, to_wide) = one, other
    over, turn = abs(x - to_x) < (wide + to_wide) / 2, 1 if x < to_x else -1
    begin = x - wide / 2 if over else x + turn * wide / 2
    end = to_x - to_wide / 2 if over else to_x - turn * to_wide / 2
    middle = min(begin, end) - 18 if over else (begin + end) / 2
    path = f"M{begin:.1f} {y:.1f}C{middle:.1f} {y:.1f} {middle:.1f} {to_y:.1f} {end:.1f} {to_y:.1f}"
    return element("path", {"class": "order", "d": path})


def _node(node: list[Any]) -> str:
    number, x, y, width, height, label, note, kind, _, _, _, _, name = node
    parts = [element("rect", {"x": x - width / 2, "y": y, "width": width, "height": height,
                              "rx": 3 if kind == "memory" else 7})]
    words = (element("tspan", {"class": "n"}, escape(f"{name} ", quote=False))
             + element("tspan", {"class": "op"}, escape(label, quote=False)))
    parts.append(element("text", {"x": x, "y": y + 19}, words))
    if note:
        parts.append(_text({"class": "note", "x": x, "y": y + 36}, note))
    if kind == "steer":
        parts.append(_text({"class": "way", "x": x - 0.2 * width - 9, "y": y + height + 11}, "≠0"))
        parts.append(_text({"class": "way", "x": x + 0.2 * width + 9, "y": y + height + 11}, "0"))
    return element("g", {"class": f"node {kind}", "data-node": number}, "".join(parts))


def still(drawn: Drawing) -> str:
    """All that stands still, in the order in which it is drawn; arcs end in the marker `tip`."""
    parts = list(_frames(drawn))
    parts += [_order((x, y, wide), (to_x, to_y, to_wide)) for x, y, wide, to_x, to_y, to_wide in drawn["order"]]
    parts += [element("path", {"class": f"arc {kind}".rstrip(), "d": path, "marker-end": "url(#tip)", "data-arc": key})
              for key, path, kind in drawn["arcs"]]
    parts += [_text({"class": "stub", "x": x, "y": y + 12}, told) for told, x, y, _ in drawn["stubs"]]
    for number, x, y, width, height in drawn["pads"]:
        parts.append(element("g", {"class": "pad"}, element(
            "rect", {"x": x - width / 2, "y": y, "width": width, "height": height, "rx": 5})
            + _text({"x": x, "y": y + 15}, f"pad {number}")))
    return "".join([*parts, *map(_node, drawn["nodes"])])


@functools.lru_cache(maxsize=1)
def style() -> str:
    """The rules of page.css for what is drawn here, each for drawings of the class `wsc` alone, without variables."""
    sheet = (pathlib.Path(__file__).resolve().parent / "page.css").read_text()
    colours: dict[str, str] = dict(re.findall(r"(--\w+):\s*([^;}]+)", sheet))
    made = []
    for heads, body in RULE.findall(re.sub(r"/\*.*?\*/|@media.*", "", sheet, flags=re.DOTALL)):
        selectors = [one.strip() for one in heads.split(",")]
        mine = [one for one in selectors
                if one.startswith(".") and set(re.findall(r"\.([\w-]+)", one)) <= CLASSES and ":" not in one]
        if mine and "cursor" not in body:
            told = re.sub(r"var\((--\w+)\)", lambda found: colours[found[1]], " ".join(body.split()))
            made.append(f"{', '.join(f'.wsc {one}' for one in mine)} {{{told}}}")
    return "\n".join(made)


def picture(image: Image, wave: int | None = None, scale: float = 0.8) -> str:
    """The drawing of an image, or of one of its waves, as a text of SVG that needs no other file.

    wave: its number, from 1; KeyError where there is none. scale: pixels for a unit of the drawing.
    """
    drawn = drawing(image)
    shown = [it for it in drawn["waves"] if wave is None or it[0] == wave]
    if not shown:
        raise KeyError(wave)
    left, top = (min(it[at] for it in shown) - EDGE for at in (1, 2))
    wide = max(it[1] + it[3] for it in shown) + EDGE - left
    tall = max(it[2] + it[4] for it in shown) + EDGE - top
    tip = ('<defs><marker id="tip" viewBox="0 0 8 8" refX="7" refY="4" markerWidth="7" markerHeight="7"'
           ' markerUnits="userSpaceOnUse" orient="auto"><path d="M0 0L8 4L0 8z" fill="#77828d"/></marker></defs>')
    return (f'<svg xmlns="http://www.w3.org/2000/svg" class="wsc" width="{wide * scale:.0f}" height="{tall * scale:.0f}"'
            f' viewBox="{left:.0f} {top:.0f} {wide:.0f} {tall:.0f}" font-family="{escape(FAMILY)}">'
            f"<style>{style()}</style>{tip}{still(drawn)}</svg>\n")
