"""The images of an output as PNG files of exactly the printed texels, and a sheet of all."""

from collections.abc import Iterable, Sequence
from html import escape
from pathlib import Path

from zorvleid.output import Image, Output, OutputRefused

from . import files
from .history import ENDS_HERE, History, images_after
from .log import what
from .page import NAMING
from .plain import counted
from .png import png

PIXELS_AT_MOST = 1 << 26
SCALE_AT_MOST = 64
MARKS_TOLD = 100


class TooLarge(Exception):
    """An image that would have too many pixels."""


class NoEvent(Exception):
    """A number that no event of an output has."""


def picture(image: Image, scale: int) -> bytes:
    """The bytes of a PNG file that repeats each texel `scale` times in both directions."""
    if image.width * image.height * scale * scale > PIXELS_AT_MOST:
        raise TooLarge(f"image {image.number} would have more than {PIXELS_AT_MOST:,} pixels")
    return png(image.width, image.height, image.texels, scale)


def name_of(image: Image) -> str:
    return f"image-{image.number}.png"


def size_of(image: Image) -> str:
    return f"{image.width} by {image.height}"


def figure(image: Image, failed: int) -> str:
    """One image on the sheet, large enough for its texels to be seen, and its failed commands."""
    grown = max(1, 160 // max(image.width, image.height))
    mark = ""
    if failed:
        mark = f'<br><span class="failed">{counted(failed, "command")} on it failed</span>'
    return (
        f'<figure><div class="ground"><img src="{name_of(image)}" width="{image.width * grown}" '
        f'height="{image.height * grown}" '
        f'alt="image {image.number}, {size_of(image)} texels"></div>'
        f"<figcaption><b>image {image.number}</b><br>{size_of(image)}{mark}</figcaption></figure>")


class Marks:
    """The failed commands, the dropped waits and the losses of an output up to an event."""

    def __init__(self, output: Output, count: int) -> None:
        self.why_none, self.is_cut = "", output.is_cut
        self.lines: list[str] = []
        self.count = {"failed": 0, "dropped": 0, "lost": 0}
        self.on: dict[int, int] = {}  # by image, how many commands on it failed
        if output.is_verdict:
            return
        try:
            history = History(output)
        except OutputRefused as refused:
            self.why_none = f"What its commands did is not told: {refused}."
            return
        self.is_cut = history.output.is_cut
        for place, deed in enumerate(history.deeds[:count]):
            if deed.mark:
                self.count[deed.mark] += 1
                if deed.mark != "dropped":
                    self.lines.append(f"event {place + 1}: {what(history, place)}")
            told = deed.command.values if deed.mark == "failed" and deed.command else {}
            for image in {told[field] for field in NAMING if field in told}:
                self.on[image] = self.on.get(image, 0) + 1

    def sentence(self) -> str:
        names = {"failed": ("command failed", "commands failed"),
                 "dropped": ("wait was dropped", "waits were dropped"),
                 "lost": ("stream was lost", "streams were lost")}
        return ", ".join(
            counted(self.count[mark], *names[mark]) for mark in names if self.count[mark]
        )

    def items(self) -> str:
        ends = f"<p>{ENDS_HERE.capitalize()}.</p>" if self.is_cut else ""
        if not self.lines:
            return ends
        rest = len(self.lines) - MARKS_TOLD
        items = [escape(line) for line in self.lines[:MARKS_TOLD]] + (
            [f"and {rest:,} more"] if rest > 0 else []
        )
        return (
            "<h2>Failed commands and losses</h2><ul>"
            + "".join(f"<li>{item}</li>" for item in items)
            + "</ul>" + ends
        )


def sheet(images: Sequence[Image], scale: int, marks: Marks, of: str = "The output has") -> str:
    count = "no image" if not images else counted(len(images), "image")
    repeated = told = ""
    if images and scale > 1:
        repeated = f"; the files repeat each texel {scale} times in both directions"
    if sentence := marks.sentence():
        told = f" {sentence}."
    elif marks.why_none:
        told = f" {marks.why_none}"
    page = files.part_of_page("sheet.html")
    page = page.replace("{{summary}}", escape(f"{of} {count}{repeated}.{told}"))
    page = page.replace(
        "{{figures}}", "\n".join(figure(image, marks.on.get(image.number, 0)) for image in images)
    )
    return page.replace("{{marks}}", marks.items())


def images_of(output: Output, at: int | None) -> tuple[Iterable[Image], int, str]:
    """The images to draw, the number of events before them, and the first words of the sheet."""
    if at is None:
        return output.images, len(output.events), "The output has"
    if output.is_verdict:
        raise OutputRefused(1, "the output of verify has no journal")
    if at > len(output.events):
        raise NoEvent(f"--at {at}: the output has {counted(len(output.events), 'event')}")
    return images_after(output, at), at, f"After event {at:,} of {len(output.events):,} the run has"


def write(
    output: Output,
    folder: Path,
    scale: int = 1,
    at: int | None = None,
    inputs: Iterable[str] = (),
) -> bool:
    """Writes the pictures of an output and the sheet to a folder, at its end or after an event.

    The answer is whether the end of the output is missing.
    """
    found, count, of = images_of(output, at)
    images = list(found)
    made = [(Path(folder) / name_of(image), picture(image, scale)) for image in images]
    marks = Marks(output, count)
    made.append((Path(folder) / "index.html", sheet(images, scale, marks, of).encode()))
    with files.made_folder(folder):
        files.write_all(made, inputs)
    return marks.is_cut
