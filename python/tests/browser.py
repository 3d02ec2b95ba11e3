"""Drives Chromium without a window, by its debugging pipe: opens a page, presses keys, takes pictures."""

import base64
import json
import os
import pathlib
import select
import shutil
import subprocess
import tempfile
import time
from typing import Any

from wavescalar.faults import Fault

# The keys of the pages, by the names that a page knows them by.
CODES = {"PageDown": 34, "PageUp": 33, "End": 35, "Home": 36, "ArrowLeft": 37, "ArrowUp": 38, "ArrowRight": 39,
         "ArrowDown": 40, "Tab": 9, "Enter": 13, "Escape": 27}


# In seconds: how often a page is asked for its state, how long it is waited for, and how long for an answer of the browser.
PAUSE, PATIENCE, SILENCE = 0.05, 120, 300
NAMES = ("chromium", "chromium-browser", "google-chrome")


class Ended(Fault):
    """The browser itself has ended, or says nothing any more; the page is hardly to blame."""


def found() -> str | None:
    """Chromium, or nothing where it isn't there."""
    return next(filter(None, map(shutil.which, NAMES)), None)


class Browser:
    """A browser with one page of this size, in CSS pixels; to be used by `with`."""

    def __init__(self, width: int, height: int, mobile: bool = False):
        program = found()
        if not program:
            raise Fault("there is no Chromium here; Debian has it as the package chromium")
        self.folder = tempfile.mkdtemp(prefix="wsc-view-")
        read_by_it, self.out = os.pipe()
        self.into, written_by_it = os.pipe()
        line = [program, "--headless=new", "--no-sandbox", "--disable-gpu", "--disable-dev-shm-usage",
                "--disable-gpu-watchdog", "--disable-hang-monitor", "--hide-scrollbars", "--force-color-profile=srgb",
                f"--user-data-dir={self.folder}", "--remote-debugging-pipe"]
        # the pipe is made of the child's descriptors 3 and 4
        shell = f'exec "$0" "$@" 3<&{read_by_it} 4>&{written_by_it}'
        self.child = subprocess.Popen(["bash", "-c", shell, *line], pass_fds=(read_by_it, written_by_it),
                                      stderr=subprocess.DEVNULL, stdout=subprocess.DEVNULL)
        os.close(read_by_it)
        os.close(written_by_it)
        self.count, self.rest = 0, b""
        self.session: str | None = None
        # what a page complained of: faults of its scripts, and what its policy forbade
        self.complaints: list[str] = []
        self.size = {"width": width, "height": height, "deviceScaleFactor": 1, "mobile": mobile}
        self.tab()

    def tab(self) -> str:
        """Opens one more page, which has what is asked from now on; gives what `self.session` is for it."""
        self.session = None
        target = self.ask("Target.createTarget", url="about:blank")["targetId"]
        session = str(self.ask("Target.attachToTarget", targetId=target, flatten=True)["sessionId"])
        self.session = session
        self.ask("Page.enable")
        self.ask("Runtime.enable")
        self.ask("Log.enable")
        self.ask("Performance.enable", timeDomain="threadTicks")
        self.ask("Emulation.setDeviceMetricsOverride", **self.size)
        if self.size["mobile"]:
            self.ask("Emulation.setTouchEmulationEnabled", enabled=True, maxTouchPoints=2)
        return session

    def resize(self, width: int, height: int) -> None:
        """Gives the page another size, in CSS pixels."""
        self.size |= {"width": width, "height": height}
        self.ask("Emulation.setDeviceMetricsOverride", **self.size)

    def __enter__(self) -> "Browser":
        return self

    def __exit__(self, *_: Any) -> None:
        self.child.terminate()
        self.child.wait()
        os.close(self.out)
        os.close(self.into)
        shutil.rmtree(self.folder, ignore_errors=True)

    def ask(self, method: str, **params: Any) -> dict[str, Any]:
        """Sends a command, and waits for its answer."""
        self.count += 1
        told: dict[str, Any] = {"id": self.count, "method": method, "params": params}
        if self.session:
            told["sessionId"] = self.session
        os.write(self.out, json.dumps(told).encode() + b"\0")
        while True:
            answer = self.heard()
            if answer.get("id") == self.count:
                if "error" in answer:
                    raise Fault(f"{method}: {answer['error']['message']}")
                return dict(answer["result"])
            self.note(answer)

    def heard(self) -> dict[str, Any]:
        """What the browser says next."""
        while b"\0" not in self.rest:
            if not select.select([self.into], [], [], SILENCE)[0]:
                raise Ended(f"Chromium says nothing for {SILENCE} s")
            some = os.read(self.into, 1 << 20)
            if not some:
                raise Ended("Chromium ended")
            self.rest += some
        one, self.rest = self.rest.split(b"\0", 1)
        return dict(json.loads(one))

    def note(self, told: dict[str, Any]) -> None:
        """Keeps what a page complains of."""
        params = told.get("params", {})
        if told.get("method") == "Runtime.exceptionThrown":
            detail = params["exceptionDetails"]
            self.complaints.append(detail.get("exception", {}).get("description") or detail["text"])
        entry = params.get("entry", {})
        if told.get("method") == "Log.entryAdded" and entry.get("source") in ("security", "violation"):
            self.complaints.append(entry["text"])

    def open(self, page: str) -> None:
        """Opens a page, given as a path with what stands behind `#`, and waits until it is drawn."""
        path, mark, place = page.partition("#")
        self.ask("Page.navigate", url="about:blank")
        self.ask("Page.navigate", url=pathlib.Path(path).resolve().as_uri() + mark + place)
        while self.value("document.readyState") != "complete" or self.value("location.protocol") != "file:":
            time.sleep(PAUSE)

    def visit(self, address: str, there: str) -> None:
        """Opens a page of a server, and waits until an expression holds in it."""
        self.ask("Page.navigate", url="about:blank")
        self.ask("Page.navigate", url=address)
        self.wait(there)

    def wait(self, there: str, seconds: float = PATIENCE) -> None:
        """Waits until an expression of the page holds, which may name what isn't there yet."""
        end = time.monotonic() + seconds
        while not self.value(f"(() => {{ try {{ return !!({there}); }} catch {{ return false; }} }})()"):
            if time.monotonic() > end:
                raise Fault(f"never: {there}; the page complains of {self.complaints}")
            time.sleep(PAUSE)

    def type(self, text: str) -> None:
        """Puts in a text where the caret stands, as an input does."""
        self.ask("Input.insertText", text=text)

    def value(self, told: str) -> Any:
        """What an expression of the page's language gives."""
        made = self.ask("Runtime.evaluate", expression=told, returnByValue=True, awaitPromise=True)
        if "exceptionDetails" in made:
            raise Fault(f"{told}: {made['exceptionDetails'].get('exception', {}).get('description')}")
        return made["result"].get("value")

    def worked(self) -> float:
        """Seconds of processor that the page has taken so far: its scripts, and what they had drawn anew."""
        told = {it["name"]: it["value"] for it in self.ask("Performance.getMetrics")["metrics"]}
        return float(told["TaskDuration"])

    def key(self, key: str, shift: bool = False, ctrl: bool = False) -> None:
        """Presses a key and lets it go."""
        code = CODES.get(key, ord(key[0].upper()))
        more = {"text": key} if len(key) == 1 and not ctrl else {"text": "\r"} if key == "Enter" else {}
        for kind in ("keyDown" if more else "rawKeyDown", "keyUp"):
            self.ask("Input.dispatchKeyEvent", type=kind, key=key, windowsVirtualKeyCode=code,
                     modifiers=(8 if shift else 0) + (2 if ctrl else 0), **(more if kind == "keyDown" else {}))

    def mouse(self, kind: str, x: float, y: float, **more: Any) -> None:
        """An event of the mouse at a place of the page, in CSS pixels."""
        self.ask("Input.dispatchMouseEvent", type=kind, x=x, y=y, button="left", buttons=1, clickCount=1, **more)

    def click(self, x: float, y: float) -> None:
        """Presses the mouse at a place and lets it go."""
        self.mouse("mousePressed", x, y)
        self.mouse("mouseReleased", x, y)

    def drag(self, x: float, y: float, to_x: float, to_y: float) -> None:
        """Presses the mouse at a place, and lets it go at another."""
        self.mouse("mousePressed", x, y)
        self.mouse("mouseMoved", to_x, to_y)
        self.mouse("mouseReleased", to_x, to_y)

    def touch(self, kind: str, *points: tuple[float, float]) -> None:
        """An event of fingers at these places."""
        told = [{"x": x, "y": y, "id": k} for k, (x, y) in enumerate(points)]
        self.ask("Input.dispatchTouchEvent", type=kind, touchPoints=told)

    def picture(self) -> bytes:
        """The page as it stands, as PNG."""
        return base64.b64decode(self.ask("Page.captureScreenshot", format="png")["data"])

    def print(self) -> bytes:
        """The page as it is printed, as PDF."""
        made = self.ask("Page.printToPDF", printBackground=True, preferCSSPageSize=True, landscape=True)
        return base64.b64decode(made["data"])
