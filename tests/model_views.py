"""The view lines of an output, judged a second time by the sums of the texels after each event.

What a viewer saw is left open. Each of its lines names a prefix of the journal by its length, and
the sum of the texels of all images then. No line names a shorter prefix than the one before. The
last one names the whole journal.
"""

import re
from collections.abc import Mapping
from dataclasses import dataclass

from tests.model_run import Image

LOOKS = 17
LINE = re.compile(r"view ([1-9][0-9]*) (0|[1-9][0-9]*) ([0-9a-f]{8})")


def sum_of(images: Mapping[int, Image], image: int, x: int, y: int, w: int, h: int) -> int:
    """The sum of the texels of a rectangle, or of none where it does not lie in an image."""
    if image not in images or x + w > images[image][0] or y + h > images[image][1]:
        return 0
    width, _, texels = images[image]
    return sum(sum(texels[(y + row) * width + x:(y + row) * width + x + w]) for row in range(h))


@dataclass
class Looks:
    """The looks of the viewers of an output."""

    all: int = 0
    early: int = 0  # those of a proper prefix
    between: int = 0  # of these, those of one that is not empty


def fault_of(lines: list[str], viewers: int, sums: list[int]) -> tuple[str | None, Looks]:
    """The first fault of view lines, or None; and the looks.

    `sums` has the sum after each number of events.
    """
    looks, events, least = Looks(), len(sums) - 1, 0
    if len(lines) != LOOKS * viewers:
        return f"there are {len(lines)} view lines, and {LOOKS * viewers} are due", looks
    for number, line in enumerate(lines):
        viewer, look = 1 + number // LOOKS, 1 + number % LOOKS
        least = least if look > 1 else 0
        found = LINE.fullmatch(line)
        if not found or int(found[1]) != viewer:
            return f"{line[:60]!r} stands where look {look} of viewer {viewer} is due", looks
        seen = int(found[2])
        least = events if look == LOOKS else least
        if not least <= seen <= events:
            return (
                f"look {look} of viewer {viewer} is of {seen} events, and {least} to {events} are "
                "due", looks
            )
        if int(found[3], 16) != sums[seen]:
            return (
                f"look {look} of viewer {viewer} has the sum {found[3]}, and {sums[seen]:08x} is "
                f"that of {seen} events", looks
            )
        least = seen
        looks.all += 1
        looks.early += seen < events
        looks.between += 0 < seen < events
    return None, looks
