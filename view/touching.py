"""What commands touch of the images, and which event of a stream touched a place last.

A command that fails touches what it names too, since its failing depends on what is there.
"""

from collections.abc import Callable, Iterator
from dataclasses import dataclass, field
from itertools import product
from operator import itemgetter

from zorvleid.commands import NAMED

Rectangle = tuple[int, int, int, int]  # x, y, w and h


# An image that a command touches, the rectangle or None for the whole, and whether it writes.
Touch = tuple[int, Rectangle | None, bool]


# By command: the argument that names an image, those that name a corner, where it is no whole
# image, and whether it writes. Sides are w and h.
NAMED_PARTS = {
    "CreateImage": (("image", "", "", True),),
    "DeleteImage": (("image", "", "", True),),
    "CopyRect": (("source", "x", "y", False), ("target", "x2", "y2", True)),
    "ClearRect": (("image", "x", "y", True),),
    "UploadRect": (("image", "x", "y", True),),
    "UploadBucket": (("image", "x", "y", True),),
    "UploadBuffer": (("image", "x", "y", True),),
}
CREATE = NAMED["CreateImage"].id
# Where the image stands among the arguments of a command, its part, and whether that is written.
Places = tuple[int, Callable[[list[int]], Rectangle] | None, bool]


def places_of(name: str) -> Iterator[Places]:
    keys = NAMED[name].keys
    for image, x, y, writes in NAMED_PARTS[name]:
        part = itemgetter(*map(keys.index, (x, y, "w", "h"))) if x else None
        yield keys.index(image), part, writes


# by id of a command
PLACES = {NAMED[name].id: list(places_of(name)) for name in NAMED_PARTS}


def touches_of(number: int, arguments: list[int]) -> list[Touch]:
    """What a command of this id touches."""
    return [(arguments[image], part(arguments) if part else None, writes)
            for image, part, writes in PLACES[number]]


def meeting(one: Rectangle | None, other: Rectangle | None) -> Rectangle | None:
    """What two parts of an image share; None where both are the whole."""
    if one is None or other is None:
        return other if one is None else one
    left, top = max(one[0], other[0]), max(one[1], other[1])
    right = min(one[0] + one[2], other[0] + other[2])
    bottom = min(one[1] + one[3], other[1] + other[3])
    return left, top, max(0, right - left), max(0, bottom - top)


def meet(one: Touch, other: Touch) -> bool:
    """Whether two touches meet, and one of them writes."""
    part = meeting(one[1], other[1])
    is_some = one[1] is None or other[1] is None or (part is not None and part[2] * part[3] > 0)
    return one[0] == other[0] and (one[2] or other[2]) and is_some


# The latest event of each rectangle of a cell, and of each cell; what was touched last comes last.
Cell = dict[Rectangle, int]
Newest = dict[tuple[int, int], int]


@dataclass(eq=False, slots=True)
class Rectangles:
    """Rectangles, each with the latest event that touched it, to be found by their place.

    Those of about the same sides are in cells of the least power of two that no side is above.
    Each is in the cell of its corner, so it ends in the next cell at most. What was touched last
    comes last. Few cells are looked up, and of many the latest ones are gone through.
    """

    # by the powers: the cells by their column and row, and the latest event in each
    levels: dict[tuple[int, int], tuple[dict[tuple[int, int], Cell], Newest]] \
        = field(default_factory=dict)
    # of each rectangle: its cell, and where that is
    homes: dict[Rectangle, tuple[Cell, Newest, tuple[int, int]]] = field(default_factory=dict)
    # around all of them: the least x and y, and the ends of the greatest
    left: int = 1 << 40
    top: int = 1 << 40
    right: int = 0
    bottom: int = 0

    def note(self, part: Rectangle, event: int) -> None:
        if part not in self.homes:
            self.house(part)
        cell, newest, key = self.homes[part]
        newest.pop(key, None)
        newest[key] = event
        cell.pop(part, None)
        cell[part] = event

    def house(self, part: Rectangle) -> None:
        """Takes a rectangle that was not touched before."""
        x, y, w, h = part
        sides = (w - 1).bit_length(), (h - 1).bit_length()
        cells, newest = self.levels.setdefault(sides, ({}, {}))
        key = x >> sides[0], y >> sides[1]
        self.homes[part] = cells.setdefault(key, {}), newest, key
        self.left, self.top = min(x, self.left), min(y, self.top)
        self.right, self.bottom = max(x + w, self.right), max(y + h, self.bottom)

    def latest(self, part: Rectangle, least: int) -> int:
        """The latest event above `least` that touched a texel of a rectangle, or `least`."""
        x, y, w, h = part
        if not (x < self.right and y < self.bottom and x + w > self.left and y + h > self.top):
            return least
        for (wide, high), (cells, newest) in self.levels.items():
            columns = range(x + 1 - (1 << wide) >> wide, (x + w - 1 >> wide) + 1)
            rows = range(y + 1 - (1 << high) >> high, (y + h - 1 >> high) + 1)
            if (len(columns) * len(rows)) ** 2 <= len(cells):
                for key in product(columns, rows):
                    if newest.get(key, -1) > least:
                        least = latest_of(cells[key], part, least)
                continue
            for key, event in reversed(newest.items()):
                if event <= least:
                    break
                if key[0] in columns and key[1] in rows:
                    least = latest_of(cells[key], part, least)
        return least


def latest_of(cell: Cell, part: Rectangle, least: int) -> int:
    x, y, w, h = part
    for (left, top, wide, high), event in reversed(cell.items()):
        if event <= least:
            break
        if left < x + w and x < left + wide and top < y + h and y < top + high:
            return event
    return least


@dataclass(eq=False, slots=True)
class Traces:
    """The latest events at which one stream touched one image; -1 where there is none."""

    latest: int = -1
    whole: int = -1
    reads: Rectangles | None = None
    writes: Rectangles | None = None

    def note(self, part: Rectangle | None, writes: bool, event: int) -> None:
        self.latest = event
        if part is None:
            self.whole, self.reads, self.writes = event, None, None
        elif part[2] and part[3]:
            around = self.writes if writes else self.reads
            if around is None:
                around = Rectangles()
                if writes:
                    self.writes = around
                else:
                    self.reads = around
            around.note(part, event)

    def conflict(self, part: Rectangle | None, writes: bool) -> int:
        """The latest event of the stream that conflicts with a touch of another one, or -1."""
        if part is None:
            return self.latest
        found = self.whole
        if part[2] and part[3]:
            if self.writes is not None:
                found = self.writes.latest(part, found)
            if writes and self.reads is not None:
                found = self.reads.latest(part, found)
        return found
