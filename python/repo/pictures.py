"""Makes the pictures of pages that stand in the docs: `python/run repo.pictures [NAME ..]`. It needs Chromium.

Each is a page of the viewer, or that of serve.py, at an event, as PNG of at most 256 colours. The plots, which are SVG, are
made by the lines that EXPERIMENTS.md tells.
"""

import pathlib
import struct
import sys
import tempfile
import zlib
from collections import Counter

from tests.browser import Browser
from tests.viewer import served_page
from wavescalar.cli import Line, whole
from wavescalar.programs import ROOT, traced, usual
from wavescalar.viewer.view import Way, page

PLACE = ROOT / "docs" / "pictures"
SUM = (ROOT / "examples" / "sum.job").read_text().replace("%input\n10\n", "%input\n3\n")
CALLS = (ROOT / "examples" / "viewer" / "calls.job").read_text()
# For each picture the job, in which way its steps are made, where it is opened, and its size.
PICTURES: dict[str, tuple[str, Way, str, int, int]] = {
    "event": (SUM, "trace", "event=25&wave=2", 1000, 620),
    "rounds": (SUM, "rounds", "event=49&wave=2", 1000, 620),
    "grid": (SUM, (4, 2), "event=43&wave=2", 1000, 620),
    "calls": (CALLS, "trace", "event=80&wave=4", 1000, 600),
}
# And of the page of serve.py what its address tells, and its size.
SERVED = {"lesson": ("example=sum&A=trace&B=random-1&by=event&at=60", 1366, 768)}


def rows_of(png: bytes) -> tuple[list[bytes], int]:
    """The rows of an 8-bit picture in true colour, as bytes, and how many bytes a point has."""
    at, data, width, many = 8, b"", 0, 3
    while at < len(png):
        size, kind = struct.unpack(">I4s", png[at : at + 8])
        part = png[at + 8 : at + 8 + size]
        if kind == b"IHDR":
            width, many = struct.unpack(">I", part[:4])[0], {2: 3, 6: 4}[part[9]]
        data += part if kind == b"IDAT" else b""
        at += size + 12
    raw, line, rows = zlib.decompress(data), width * many, []
    before = bytearray(line)
    for start in range(0, len(raw), line + 1):
        before = unfiltered(raw[start], bytearray(raw[start + 1 : start + 1 + line]), before, many)
        rows.append(bytes(before))
    return rows, many


def unfiltered(kind: int, row: bytearray, before: bytearray, many: int) -> bytearray:
    """A row without its filter: each byte is told by its distance from those beside and above it."""
    if kind == 0:
        return row
    for k in range(len(row)):
        left = row[k - many] if k >= many else 0
        over = before[k]
        if kind == 1:
            add = left
        elif kind == 2:
            add = over
        elif kind == 3:
            add = (left + over) // 2
        else:
            corner = before[k - many] if k >= many else 0
            guess = left + over - corner
            add = min((left, over, corner), key=lambda one: abs(guess - one))
        row[k] = (row[k] + add) & 255
    return row


def small(png: bytes) -> bytes:
    """The picture with the 256 colours that it has most, others by the nearest of these."""
    rows, many = rows_of(png)
    points = [[row[k : k + 3] for k in range(0, len(row), many)] for row in rows]
    counts = Counter(point for row in points for point in row)
    palette = [colour for colour, _ in counts.most_common(256)]
    place = {colour: k for k, colour in enumerate(palette)}
    for colour in counts:
        if colour not in place:
            near = min(palette, key=lambda one: sum((a - b) ** 2 for a, b in zip(one, colour)))
            place[colour] = place[near]
    data = b"".join(b"\0" + bytes(place[point] for point in row) for row in points)

    def part(kind: bytes, told: bytes) -> bytes:
        return struct.pack(">I", len(told)) + kind + told + struct.pack(">I", zlib.crc32(kind + told))

    head = struct.pack(">IIBBBBB", len(points[0]), len(points), 8, 3, 0, 0, 0)
    return (b"\x89PNG\r\n\x1a\n" + part(b"IHDR", head) + part(b"PLTE", b"".join(palette))
            + part(b"IDAT", zlib.compress(data, 9)) + part(b"IEND", b""))


def of_page(name: str, program: str) -> bytes:
    """The picture of a page of the viewer."""
    job, way, place, width, height = PICTURES[name]
    with tempfile.TemporaryDirectory() as folder, Browser(width, height) as browser:
        file = pathlib.Path(folder) / f"{name}.html"
        title = "calls" if job is CALLS else "sum"
        file.write_text(page(traced(program, job), title, 20000, job, program, way))
        browser.open(f"{file}#{place}")
        return browser.picture()


def of_served(name: str, program: str) -> bytes:
    """The picture of the page of serve.py, without the time that its answer took."""
    place, width, height = SERVED[name]
    with served_page.Served(program) as served, Browser(width, height) as browser:
        browser.visit(f"{served.address}#{place}", served_page.SHOWN)
        browser.value("state('')")
        return browser.picture()


def of_file(page: str) -> bytes:
    """The picture of a page that is there, as one of wsc-sim: its path, and its place behind `#`."""
    with Browser(1400, 900) as browser:
        browser.open(page)
        return browser.picture()


def main() -> int:
    ask = Line(__doc__)
    ask.add_argument("--page", metavar="FILE#PLACE", help="takes this page in place of one that is made here: of a timed run")
    ask.add_argument("names", metavar="NAME", nargs="*")
    line = ask.parse_args()
    for name in line.names or [*PICTURES, *SERVED]:
        if line.page:
            made = of_file(line.page)
        else:
            made = of_page(name, usual()) if name in PICTURES else of_served(name, usual())
        (PLACE / f"{name}.png").write_bytes(small(made))
    return 0


if __name__ == "__main__":
    sys.exit(whole(main))
