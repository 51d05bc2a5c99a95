"""Images as the commands of a journal change them, by the table of docs/FORMATS.md."""

from dataclasses import dataclass, field
from functools import lru_cache
from typing import NamedTuple

from .table import BYTES_OF_FORMAT

SIDE_AT_MOST = 4096
TEXELS_AT_MOST = 4_194_304
NO_IMAGE, NO_ROOM, OUTSIDE = "0502", "0505", "0501"


@dataclass(eq=False)
class Picture:
    """An image: red, green, blue and alpha of each texel, row after row."""

    width: int
    height: int
    texels: bytearray

    def rows(self, x: int, y: int, w: int, h: int) -> list[bytes]:
        """The rows of a rectangle inside the image."""
        first = 4 * (y * self.width + x)
        return [bytes(self.texels[at:at + 4 * w])
                for at in range(first, first + 4 * self.width * h, 4 * self.width)]

    def put(self, x: int, y: int, w: int, rows: list[bytes]) -> None:
        at = 4 * (y * self.width + x)
        for row in rows:
            self.texels[at:at + 4 * w] = row
            at += 4 * self.width

    def has(self, x: int, y: int, w: int, h: int) -> bool:
        return x + w <= self.width and y + h <= self.height


class Written(NamedTuple):
    """A rectangle that an event wrote: its texels row after row, or one texel for all.

    A new image is a whole rectangle. A deleted one has none.
    """

    image: int
    x: int
    y: int
    w: int
    h: int
    texels: bytes
    kind: str = "wrote"  # or `made`, or `gone`


class Failed(Exception):
    """An image operation that cannot be done, with its error and why."""

    def __init__(self, error: str, why: str) -> None:
        super().__init__(why)
        self.error, self.why = error, why


@lru_cache(maxsize=1 << 16)
def texel_of(form: int, value: int) -> bytes:
    """A texel of a format with less than four bytes."""
    if form == 2:
        channels = [(value >> 11, 31), (value >> 5 & 63, 63), (value & 31, 31), (1, 1)]
    elif form == 3:
        channels = [(value >> shift & 15, 15) for shift in (12, 8, 4, 0)]
    else:
        channels = [(value, 255)] * 3 + [(1, 1)]
    return bytes(channel * 255 // most for channel, most in channels)


def texels_of(form: int, data: bytes) -> bytes:
    """The texels of bytes of a format."""
    size = BYTES_OF_FORMAT[form]
    if size == 4:
        return data
    values = (int.from_bytes(data[at:at + size], "little") for at in range(0, len(data), size))
    return b"".join(texel_of(form, value) for value in values)


def rectangle(x: int, y: int, w: int, h: int) -> str:
    return f"the rectangle at {x}, {y} of {w} by {h}"


def size_of(picture: Picture) -> str:
    return f"{picture.width} by {picture.height}"


@dataclass(eq=False)
class Images:
    """All images, by their numbers.

    Each operation answers what it wrote, or raises Failed and changes nothing.
    """

    pictures: dict[int, Picture] = field(default_factory=dict)

    def there(self, image: int, role: str = "") -> Picture:
        if image not in self.pictures:
            raise Failed(NO_IMAGE, f"image {image}{role} is not there")
        return self.pictures[image]

    def inside(self, image: int, x: int, y: int, w: int, h: int, role: str = "") -> Picture:
        picture = self.there(image, role)
        if not picture.has(x, y, w, h):
            raise Failed(OUTSIDE,
                         f"{rectangle(x, y, w, h)} is not inside image {image}{role or ','} which "
                         f"is {size_of(picture)}")
        return picture

    def create(self, image: int, width: int, height: int) -> Written:
        if image in self.pictures:
            raise Failed(NO_IMAGE, f"image {image} is there already")
        if not (1 <= width <= SIDE_AT_MOST and 1 <= height <= SIDE_AT_MOST):
            raise Failed(OUTSIDE, f"a side of {width} by {height} is 0 or above {SIDE_AT_MOST:,}")
        whole = width * height + sum(
            picture.width * picture.height for picture in self.pictures.values()
        )
        if whole > TEXELS_AT_MOST:
            raise Failed(NO_ROOM,
                         f"all images together would have {whole:,} texels, more than "
                         f"{TEXELS_AT_MOST:,}")
        self.pictures[image] = Picture(width, height, bytearray(4 * width * height))
        return Written(image, 0, 0, width, height, bytes(4), "made")

    def delete(self, image: int) -> Written:
        self.there(image)
        del self.pictures[image]
        return Written(image, 0, 0, 0, 0, b"", "gone")

    def write(self, image: int, x: int, y: int, w: int, h: int, texels: bytes) -> Written:
        """Sets a rectangle, which the caller has checked, from its texels or from one for all."""
        picture = self.pictures[image]
        if len(texels) == 4:
            rows = [texels * w] * h
        else:
            rows = [texels[at:at + 4 * w] for at in range(0, len(texels), 4 * w)] if w else []
            texels = texels[:4] if texels == texels[:4] * (w * h) else texels
        picture.put(x, y, w, rows)
        return Written(image, x, y, w, h, texels)

    def copy(
        self, source: int, source_x: int, source_y: int, target: int, x: int, y: int, w: int, h: int
    ) -> Written:
        taken = self.there(source, ", the source,")
        self.there(target, ", the target,")
        self.inside(source, source_x, source_y, w, h, ", the source,")
        self.inside(target, x, y, w, h, ", the target,")
        return self.write(target, x, y, w, h, b"".join(taken.rows(source_x, source_y, w, h)))
