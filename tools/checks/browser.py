"""A Chromium without a window, driven through its debugging pipe by the standard library alone."""

import base64
import fcntl
import json
import os
import select
import shutil
import subprocess
import tempfile
import time
from collections.abc import Callable
from pathlib import Path
from typing import Any

from tools.checks import clock

NAMES = ("chromium", "chromium-browser", "google-chrome")
SECONDS = 300
BAD = ("error", "warning", "assert")  # kinds of lines on the console
HIGH = 10  # the least number of a pipe that is out of the way


class BrowserFault(Exception):
    """The browser did not start, did not answer, or refused."""


def program() -> str | None:
    """The path of the browser, or None where there is none."""
    return next(filter(None, map(shutil.which, NAMES)), None)


def put_pipes(asked: int, told: int) -> None:
    """Puts the pipes where the browser looks for them: it reads 3, and writes 4."""
    os.dup2(asked, 3)
    os.dup2(told, 4)


class Browser:
    """One browser with one page. What went wrong on its console is kept in `errors`."""

    def __init__(self) -> None:
        self.errors: list[str] = []
        self.events: list[str] = []
        self.left, self.last = b"", 0
        self.session: str | None = None
        self.folder = tempfile.TemporaryDirectory(ignore_cleanup_errors=True)
        asked, self.commands = os.pipe()
        self.answers, told = os.pipe()
        ends = [fcntl.fcntl(end, fcntl.F_DUPFD_CLOEXEC, HIGH) for end in (asked, told)]
        words = [program() or NAMES[0], "--headless=new", "--no-sandbox", "--disable-gpu",
                 "--disable-dev-shm-usage", "--no-first-run", "--disable-background-networking",
                 "--disable-component-update", "--disable-extensions", "--hide-scrollbars",
                 f"--user-data-dir={self.folder.name}", "--remote-debugging-pipe", "about:blank"]
        self.process = subprocess.Popen(words, close_fds=False, stdin=subprocess.DEVNULL,
                                        stdout=subprocess.DEVNULL, stderr=subprocess.DEVNULL,
                                        preexec_fn=lambda: put_pipes(*ends))
        for end in (asked, told, *ends):
            os.close(end)
        self.begin()

    def begin(self) -> None:
        pages = self.call("Target.getTargets")["targetInfos"]
        page = next(page for page in pages if page["type"] == "page")
        told = self.call("Target.attachToTarget", targetId=page["targetId"], flatten=True)
        self.session = told["sessionId"]
        for domain in ("Page", "Runtime", "Log"):
            self.call(domain + ".enable")

    def __enter__(self) -> "Browser":
        return self

    def __exit__(self, *_: object) -> None:
        self.process.kill()
        self.process.wait()
        os.close(self.commands)
        os.close(self.answers)
        self.folder.cleanup()

    def message(self, until: float) -> dict[str, Any]:
        """The next message of the browser."""
        while b"\0" not in self.left:
            ready, _, _ = select.select([self.answers], [], [], max(0, until - time.monotonic()))
            part = os.read(self.answers, 1 << 20) if ready else b""
            if not part:
                raise BrowserFault("the browser does not answer")
            self.left += part
        text, _, self.left = self.left.partition(b"\0")
        message: dict[str, Any] = json.loads(text)
        self.note(message)
        return message

    def note(self, message: dict[str, Any]) -> None:
        """Keeps what a message says of the console and of the page."""
        method, told = message.get("method"), message.get("params", {})
        if method == "Runtime.exceptionThrown":
            self.errors.append(
                told["exceptionDetails"].get("exception", {}).get("description", "an exception")
            )
        elif method == "Runtime.consoleAPICalled" and told["type"] in BAD:
            self.errors.append(" ".join(str(value.get("value")) for value in told["args"]))
        elif method == "Log.entryAdded" and told["entry"]["level"] in ("error", "warning"):
            self.errors.append(told["entry"]["text"])
        elif method:
            self.events.append(method)

    def call(self, method: str, **parameters: object) -> Any:
        self.last += 1
        asked: dict[str, Any] = {"id": self.last, "method": method, "params": parameters}
        if self.session:
            asked["sessionId"] = self.session
        try:
            os.write(self.commands, json.dumps(asked).encode() + b"\0")
        except OSError as error:
            raise BrowserFault(f"the browser does not listen: {error.strerror}") from None
        until = time.monotonic() + SECONDS
        while (message := self.message(until)).get("id") != self.last:
            pass
        if "error" in message:
            raise BrowserFault(f"{method}: {message['error']['message']}")
        return message["result"]

    def size(self, width: int, height: int = 900, sharp: int = 1) -> None:
        self.call("Emulation.setDeviceMetricsOverride", width=width, height=height,
                  deviceScaleFactor=sharp, mobile=width < 600)

    def before_each_page(self, script: str) -> str:
        """Runs a script before those of each page that is opened, until `before_no_page`."""
        told = self.call("Page.addScriptToEvaluateOnNewDocument", source=script)
        return str(told["identifier"])

    def before_no_page(self, script: str) -> None:
        """Runs the script of this name before no page any more."""
        self.call("Page.removeScriptToEvaluateOnNewDocument", identifier=script)

    def scheme(self, name: str) -> None:
        """Asks for light or dark colours."""
        self.call(
            "Emulation.setEmulatedMedia", features=[{"name": "prefers-color-scheme", "value": name}]
        )

    def load(self, address: str) -> None:
        """Goes to an address, and waits until the page is loaded."""
        self.events, begun = [], time.monotonic()
        self.call("Page.navigate", url=address)
        while "Page.loadEventFired" not in self.events:
            self.message(begun + SECONDS)

    def open(self, path: Path, fragment: str = "") -> None:
        """Opens a file, and waits until it is loaded and drawn."""
        self.errors = []
        self.load("about:blank")
        self.load(path.resolve().as_uri() + fragment)
        self.value("new Promise(done => requestAnimationFrame(() => setTimeout(done)))")

    def seconds(self, act: Callable[[], object]) -> float:
        """How many seconds the browser takes for an act, without those of other programs."""
        return clock.seconds_of(self.process.pid, act)

    def value(self, script: str) -> Any:
        told = self.call(
            "Runtime.evaluate", expression=script, returnByValue=True, awaitPromise=True
        )
        if "exceptionDetails" in told:
            raise BrowserFault(f"{script}: {told['exceptionDetails']['text']}")
        return told["result"].get("value")

    def click(self, selector: str) -> None:
        """Clicks the middle of an element with the mouse."""
        self.value(
            f"document.querySelector({json.dumps(selector)}).scrollIntoView({{block: 'center'}})"
        )
        x, y = self.value(
            "(box => [box.x + box.width / 2, box.y + box.height / 2])"
            f"(document.querySelector({json.dumps(selector)}).getBoundingClientRect())"
        )
        for kind in ("mousePressed", "mouseReleased"):
            self.call("Input.dispatchMouseEvent", type=kind, x=x, y=y, button="left", clickCount=1)

    def key(self, name: str, code: int = 0, modifiers: int = 0) -> None:
        """Presses a key. One that does something by itself, as Tab, needs its code."""
        for kind in ("keyDown", "keyUp"):
            self.call("Input.dispatchKeyEvent", type=kind, key=name, code=name,
                      windowsVirtualKeyCode=code, modifiers=modifiers)

    def write(self, text: str) -> None:
        """Writes a text where the focus is."""
        self.call("Input.insertText", text=text)

    def point(self, x: float, y: float, kind: str = "mousePressed", **more: object) -> None:
        """Does something with the mouse at a point of the window."""
        self.call("Input.dispatchMouseEvent", type=kind, x=x, y=y, **more)

    def drag(self, x: float, y: float, right: float) -> None:
        """Drags the mouse from a point to the right."""
        self.point(x, y, button="left", clickCount=1)
        for part in (1, 2, 3, 4):
            self.point(x + right * part / 4, y, "mouseMoved", button="left", buttons=1)
        self.point(x + right, y, "mouseReleased", button="left", clickCount=1)

    def pinch(self, x: float, y: float, apart: float, further: float) -> None:
        """Moves two fingers from each other, by so much each."""
        for kind, wide in (("touchStart", apart), ("touchMove", apart + further / 2),
                           ("touchMove", apart + further)):
            touches = [{"x": x - wide, "y": y, "id": 1}, {"x": x + wide, "y": y, "id": 2}]
            self.call("Input.dispatchTouchEvent", type=kind, touchPoints=touches)
        self.call("Input.dispatchTouchEvent", type="touchEnd", touchPoints=[])

    def settle(self) -> None:
        """Waits until the page has drawn what was asked of it."""
        self.value(
            "new Promise(done => requestAnimationFrame(() => requestAnimationFrame(() => "
            "setTimeout(done))))")

    def picture(self, path: Path, selector: str | None = None, border: int = 0) -> None:
        """Writes a PNG file of the window, or of an element with `border` pixels round it."""
        asked: dict[str, object] = {}
        if selector:
            box = self.value(
                "(box => [box.x + scrollX, box.y + scrollY, box.width, box.height])"
                f"(document.querySelector({json.dumps(selector)}).getBoundingClientRect())"
            )
            x, y, width, height = box
            clip = {"x": x - border, "y": y - border, "width": width + 2 * border,
                    "height": height + 2 * border, "scale": 1}
            asked = {"clip": clip, "captureBeyondViewport": True}
        path.write_bytes(base64.b64decode(self.call("Page.captureScreenshot", **asked)["data"]))
