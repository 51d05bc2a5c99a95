"""Draws docs/pictures/*.png for examples/README.md, from stored outputs. It needs Chromium."""

import argparse
import subprocess
import sys
import tempfile
from pathlib import Path

from tools.checks.browser import Browser, program
from tools.places import TOP

INTO = TOP / "docs/pictures"
EXAMPLES = ("compositor", "lost_stream")
WIDTH = 760
CHOSEN = 5  # the event whose line the timeline shows
BESIDE = "#images, [aria-labelledby=state-head], .left:not(#timeline)"  # left out of a picture


def draw(browser: Browser, folder: Path, example: str) -> None:
    """The images of an example as its sheet shows them, and its timeline with one event chosen."""
    output = (TOP / f"examples/{example}.stdout").read_bytes()
    sheet, page = folder / example, folder / f"{example}.html"
    for words in (["pictures", "--into", str(sheet)], ["timeline", "--page", str(page)]):
        subprocess.run([TOP / "zorvleid", *words], input=output, check=True)
    browser.size(WIDTH)
    browser.open(sheet / "index.html")
    browser.picture(INTO / f"{example}_images.png", "main", 8)
    browser.open(page, f"#event={CHOSEN}")
    browser.settle()
    browser.value("scrollTo(0, 0)")
    browser.call("Input.dispatchMouseEvent", type="mouseMoved", x=1, y=1)
    browser.value("document.querySelector('#detail').style.marginBottom = 0")
    browser.value(f"for (const one of document.querySelectorAll('{BESIDE}')) one.hidden = true")
    browser.picture(INTO / f"{example}_timeline.png", "#shown", 4)


def main() -> int:
    argparse.ArgumentParser(prog="tools/draw_pictures", description=__doc__).parse_args()
    if program() is None:
        print("Chromium is missing (apt install chromium)", file=sys.stderr)
        return 127
    INTO.mkdir(exist_ok=True)
    with tempfile.TemporaryDirectory() as folder, Browser() as browser:
        for example in EXAMPLES:
            draw(browser, Path(folder), example)
    return 0


if __name__ == "__main__":
    sys.exit(main())
