"""A browser that looks at one page, and reports its faults."""

import math
from collections.abc import Callable, Iterable
from pathlib import Path
from typing import Any

from tools.checks import browser
from tools.checks.tally import Tally
from view import page as pages
from zorvleid.output import read_output

WIDTHS = (1280, 700, 390)
TRIES = 5
FRAME = 100  # the most milliseconds of a frame
TEXT = "document.querySelector('{}').textContent"


class Looker:
    """A browser that looks at one page, and reports its faults."""

    def __init__(self, page: browser.Browser, name: str, tally: Tally) -> None:
        self.page, self.name, self.tally, self.where = page, name, tally, ""

    def tell(self, what: str, got: object, wanted: object) -> None:
        self.tally.tell(f"the page of {self.name}{self.where}, {what}",
                        None if got == wanted else f"wanted {wanted!r}, got {got!r}")

    def quick(self, what: str, measured: Callable[[], float]) -> None:
        """Reports a fault where each of some tries takes longer than a frame may."""
        self.within(what, FRAME, (measured() for _ in range(TRIES)))

    def within(self, what: str, most: float, tries: Iterable[float]) -> None:
        """Reports a fault where no try takes fewer milliseconds. The first that does ends them."""
        least = math.inf
        for took in tries:
            least = min(least, took)
            if least < most:
                break
        self.tally.note(f"{what}: {least:.0f} ms")
        self.tally.tell(what, None if least < most else f"each time it took {least:.0f} ms or more")

    def value(self, script: str) -> Any:
        return self.page.value(script)

    def text(self, selector: str) -> str:
        self.page.settle()
        return str(self.page.value(TEXT.format(selector)))

    def line(self) -> str:
        return self.text("#detail code")

    def point(self, place: int) -> tuple[float, float]:
        """Where an event is drawn, in pixels of the window."""
        px, py = self.value(
            f"(box => [box.x + x({place}), box.y + y({place})])"
            "(element('chart').getBoundingClientRect())")
        return px, py

    def click(self, place: int) -> None:
        self.value("element('chart').scrollIntoView({block: 'center'})")
        px, py = self.point(place)
        for kind in ("mousePressed", "mouseReleased"):
            self.page.point(px, py, kind, button="left", clickCount=1)

    def colour(self, px: float, py: float) -> str:
        """The colour of a point of the chart."""
        return str(self.value(
            "[...element('chart').getContext('2d').getImageData("
            f"{px} * Math.min(2, devicePixelRatio), {py} * Math.min(2, devicePixelRatio), 1, 1)"
            ".data.subarray(0, 3)].join()"))


def write_page(text: str, path: Path, most: int | None = None) -> Path:
    read = read_output(text.encode())
    path.write_text(pages.text(read) if most is None else pages.text(read, None, most),
                    encoding="utf-8")
    return path


def complaints(page: browser.Browser) -> list[str]:
    """The lines of the console, but for advice about reading pixels, which this check does."""
    return [text for text in page.errors if "willReadFrequently" not in text]
