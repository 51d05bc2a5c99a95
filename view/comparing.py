"""The page of two outputs beside each other: differences in words, of images, and of journals."""

import base64
from collections.abc import Sequence
from html import escape

from zorvleid.output import Image

from . import files
from .compare import CHANNELS, Comparison, ImageDifference, Parting, lines
from .history import History
from .log import what
from .page import filled
from .plain import counted
from .png import png

IMAGES_SHOWN, TEXELS_AT_MOST = 48, 1 << 22
BEFORE, AFTER = 3, 8  # events that are shown of each journal, round the place where they part
SAME, OTHER = b"\x80\x80\x80\x30", b"\xd6\x00\x8f\xff"


def shown(texels: bytes, width: int, height: int, name: str) -> str:
    """An image as a figure, large enough for its texels to be seen."""
    grown = max(1, 200 // max(width, height))
    source = base64.b64encode(png(width, height, texels)).decode()
    return (
        f'<figure><div class="ground"><img src="data:image/png;base64,{source}" '
        f'width="{width * grown}" '
        f'height="{height * grown}" alt="{name}"></div><figcaption>{name}</figcaption></figure>')


def side(image: Image | None, name: str) -> str:
    if image is None:
        return f"<figure><figcaption>not in {name}</figcaption></figure>"
    return shown(image.texels, image.width, image.height, f"image {image.number} in {name}")


def difference(found: ImageDifference) -> str:
    """The texels that differ, over grey."""
    if found.first is None or not found.is_of_one_size:
        return ""
    texels = bytearray(SAME * (found.first.width * found.first.height))
    for place in found.places():
        texels[CHANNELS * place:CHANNELS * place + CHANNELS] = OTHER
    return shown(
        bytes(texels), found.first.width, found.first.height, f"difference of image {found.number}"
    )


def images(comparison: Comparison) -> str:
    parts, texels = [], 0
    for at, found in enumerate(comparison.images):
        texels += sum(
            len(image.texels) // CHANNELS for image in (found.first, found.second) if image
        )
        if at == IMAGES_SHOWN or texels > TEXELS_AT_MOST:
            parts.append(
                f"<p>{counted(len(comparison.images) - at, 'more image')} that differ are left "
                "out.</p>")
            break
        parts.append(f'<h3>Image {found.number}: {found.sentence()}</h3><div class="row">'
                     f'{side(found.first, "A")}{side(found.second, "B")}{difference(found)}</div>')
    return "".join(parts) or "<p>No image differs.</p>"


def cells(history: History, places: Sequence[int], at: int) -> str:
    if at >= len(places):
        return '<td></td><td class="none">no event</td>'
    place = places[at]
    return (f"<td>{place + 1:,}</td><td><code>{history.output.events[place].text}</code>"
            f"<small>{what(history, place)}</small></td>")


def table(comparison: Comparison, found: Parting, sides: Sequence[Sequence[int]]) -> str:
    """The events of both round the place where they part."""
    rows = []
    for at in range(max(0, found.same - BEFORE), min(found.same + AFTER, max(map(len, sides)))):
        both = [cells(history, places, at)
                for history, places in zip((comparison.first, comparison.second), sides)]
        rows.append(f'<tr{" class=chosen" if at >= found.same else ""}>{"".join(both)}</tr>')
    return (
        '<div class="wide"><table><thead><tr><th scope="col">A</th>'
        '<th scope="col">Event of A</th><th scope="col">B</th>'
        f'<th scope="col">Event of B</th></tr></thead><tbody>{"".join(rows)}</tbody></table></div>')


def journals(comparison: Comparison) -> str:
    """Where the journals part, as a whole and stream by stream."""
    if comparison.whole.is_none:
        return "<p>The journals are the same.</p>"
    every = [range(len(output.events)) for output in comparison.outputs]
    parts = [
        f"<h3>Both journals, after {counted(comparison.whole.same, 'event')} that are the "
        "same</h3>",
        table(comparison, comparison.whole, every)]
    for number, found in enumerate(comparison.streams):
        if not found.is_none:
            parts += [
                f"<h3>Stream {number + 1}, after {counted(found.same, 'event')} that are the "
                "same</h3>",
                table(comparison, found, [side[number] for side in comparison.places])]
    same = [str(number + 1) for number, found in enumerate(comparison.streams) if found.is_none]
    if same:
        parts.append(
            f"<p>Of its own events, {'stream' if len(same) == 1 else 'streams'} {', '.join(same)} "
            f"{'has' if len(same) == 1 else 'have'} the same in both.</p>"
        )
    return "".join(parts)


def text(comparison: Comparison, names: Sequence[str]) -> str:
    return filled(files.part_of_page("compare.html"), {
        "style": files.part_of_page("timeline.css"),
        "names": f"A is {escape(names[0])}, B is {escape(names[1])}",
        "facts": escape("\n".join(lines(comparison))),
        "images": images(comparison), "journals": journals(comparison),
    })
