"""Two outputs of one script beside each other: where journals part, and other images and ends."""

from collections.abc import Iterator, Sequence
from dataclasses import dataclass
from typing import NamedTuple

from zorvleid.output import Event, Image, Output, StreamEnd

from . import log, page
from .history import ENDS_HERE, History
from .plain import counted

CHANNELS = 4  # bytes of a texel


class NotOfOneScript(Exception):
    """Two outputs that no script has both."""


class Parting(NamedTuple):
    """Where two rows of events part: the length of the same prefix, and the next event of each."""

    same: int
    first: int | None
    second: int | None

    @property
    def is_none(self) -> bool:
        return self.first is None and self.second is None


@dataclass(frozen=True)
class ImageDifference:
    """An image that is not the same in both.

    Where both have it in one size, some of its texels differ.
    """

    number: int
    first: Image | None
    second: Image | None

    @property
    def is_of_one_size(self) -> bool:
        return (
            self.first is not None
            and self.second is not None
            and self.first[1:3] == self.second[1:3]
        )

    def places(self) -> list[int]:
        """The texels that differ, counted row after row."""
        if self.first is None or self.second is None or not self.is_of_one_size:
            return []
        one, other = self.first.texels, self.second.texels
        if one == other:
            return []
        return [at // CHANNELS
                for at in range(0, len(one), CHANNELS)
                if one[at:at + CHANNELS] != other[at:at + CHANNELS]]

    def sentence(self) -> str:
        """How the image differs, in words."""
        if self.first is None or self.second is None:
            return f"only in {'B' if self.first is None else 'A'}"
        if not self.is_of_one_size:
            return (
                f"{self.first.width} by {self.first.height} in A, {self.second.width} by "
                f"{self.second.height} in B"
            )
        places, count = self.places(), self.first.width * self.first.height
        x, y = places[0] % self.first.width, places[0] // self.first.width
        values = [image.texels[CHANNELS * places[0]:][:CHANNELS].hex()
                  for image in (self.first, self.second)]
        how_many = (
            f"{counted(len(places), 'texel')} of {count:,} "
            f"{'differs' if len(places) == 1 else 'differ'}"
        )
        return f"{how_many}, first at {x}, {y}: {values[0]} in A, {values[1]} in B"


def parting(first: Sequence[object], second: Sequence[object]) -> Parting:
    same = next((at for at, (one, other) in enumerate(zip(first, second)) if one != other),
                min(len(first), len(second)))
    return Parting(same, same if same < len(first) else None, same if same < len(second) else None)


def without_number(event: Event) -> tuple[object, ...]:
    """An event as its stream knows it: order numbers belong to the interleaving."""
    return event.kind, event.actions, event.code, event.words


def firsts(count: int) -> str:
    """What is said of the events before two rows part."""
    if count == 0:
        return "first events differ"
    are = "first event is" if count == 1 else f"first {counted(count, 'event')} are"
    return f"{are} the same, and then"


class Comparison:
    """Two histories of one script, and all in which they differ."""

    def __init__(self, first: History, second: History) -> None:
        self.first, self.second = first, second
        self.outputs = (first.output, second.output)
        if len(first.lanes) != len(second.lanes) or first.output.names != second.output.names:
            raise NotOfOneScript(
                "refused: the outputs are of two scripts: their streams are not the same"
            )
        self.whole = parting(*([event.text for event in output.events] for output in self.outputs))
        self.places = tuple(places_of(history) for history in (first, second))
        self.streams = [self.parting_of(number) for number in range(len(first.lanes))]
        self.images = list(image_differences(*self.outputs))
        self.ends = list(self.differing_ends())

    def parting_of(self, number: int) -> Parting:
        """Where a stream parts: at another event, or at a command that failed in one run alone."""
        return parting(*([(without_number(history.output.events[place]), history.deeds[place].error)
                          for place in places[number]]
                         for history, places in zip((self.first, self.second), self.places)))

    def differing_ends(self) -> Iterator[str]:
        """The differences of the streams' lines, the waits that ended, and the dumps."""
        for one, other in zip(self.outputs[0].streams, self.outputs[1].streams):
            if (one.end, one.counts) != (other.end, other.counts):
                yield f"stream {one.number}: " + difference_of(sides(one), sides(other))
        waits = [ended_waits(history) for history in (self.first, self.second)]
        for key in dict.fromkeys([*waits[0], *waits[1]]):
            if waits[0].get(key) != waits[1].get(key):
                yield (
                    f"{key}: {waits[0].get(key, 'no wait')} in A, {waits[1].get(key, 'no wait')} "
                    "in B"
                )
        dumps = [{f"dump {dump.stream} {dump.action} {dump.place}": f"{dump.value:08x}"
                  for dump in output.dumps}
                 for output in self.outputs]
        for key in dict.fromkeys([*dumps[0], *dumps[1]]):
            if dumps[0].get(key) != dumps[1].get(key):
                yield (
                    f"{key}: {dumps[0].get(key, 'no value')} in A, {dumps[1].get(key, 'no value')} "
                    "in B"
                )

    @property
    def is_same(self) -> bool:
        return self.whole.is_none and not self.images and not self.ends


def places_of(history: History) -> list[list[int]]:
    """The places of the events of each stream."""
    found: list[list[int]] = [[] for _ in history.lanes]
    for place, event in enumerate(history.output.events):
        found[event.stream - 1].append(place)
    return found


def image_differences(first: Output, second: Output) -> Iterator[ImageDifference]:
    images = [{image.number: image for image in output.images} for output in (first, second)]
    for number in sorted(images[0].keys() | images[1].keys()):
        one, other = images[0].get(number), images[1].get(number)
        if one != other:
            yield ImageDifference(number, one, other)


COUNTS = ("entries", "release", "token", "words", "errors 0501", "errors 0502", "errors 0505")


def sides(stream: StreamEnd) -> dict[str, str]:
    """The values of the line of a stream, by name."""
    return {"end": page.end_of(stream), **dict(zip(COUNTS, map(str, stream.counts)))}


def difference_of(one: dict[str, str], other: dict[str, str]) -> str:
    return ", ".join(f"{name} {one[name]} in A and {other[name]} in B"
                     for name in one if one[name] != other[name])


def ended_waits(history: History) -> dict[str, str]:
    """How each wait ended, by its stream and its target.

    A number stands for its stream.
    """
    found: dict[str, str] = {}
    numbers = {bar.number: at for lane in range(1, len(history.lanes) + 1)
               for at, bar in enumerate((bar for bar in history.bars if bar.stream == lane), 1)}
    for wait in history.waits:
        key = f"the wait of flush {numbers[wait.number]} of stream {wait.stream} " \
              f"for stream {wait.target} at release {wait.release}"
        found[key] = f"{found[key]}, {wait.how}" if key in found else wait.how
    return found


# --- In words ---


def event_line(history: History, place: int | None) -> str:
    return "no event" if place is None else log.line(history, place).strip()


def lines(comparison: Comparison) -> Iterator[str]:
    """The differences, line by line."""
    if comparison.is_same:
        yield "the two outputs say the same"
    else:
        yield from differing(comparison)
    for name, output in zip("AB", comparison.outputs):
        if output.is_cut:
            yield f"{name}: {ENDS_HERE}"


def differing(comparison: Comparison) -> Iterator[str]:
    """The differences of two outputs that do not say the same."""
    both = (comparison.first, comparison.second)
    if comparison.whole.is_none:
        yield f"journal: the same, {counted(len(comparison.outputs[0].events), 'event')}"
    else:
        yield f"journal: the {firsts(comparison.whole.same)}"
        yield from told(both, (comparison.whole.first, comparison.whole.second))
    for number, found in enumerate(comparison.streams):
        places = [side[number] for side in comparison.places]
        if found.is_none:
            yield f"stream {number + 1}: the same, {counted(len(places[0]), 'event')}"
            continue
        yield f"stream {number + 1}: its {firsts(found.same)}"
        yield from told(
            both, [at if at is None else side[at] for side, at in zip(places, found[1:])]
        )
    differing = {difference.number: difference for difference in comparison.images}
    for number in sorted(
        {image.number for output in comparison.outputs for image in output.images}
    ):
        yield (
            f"image {number}: {differing[number].sentence() if number in differing else 'the same'}"
        )
    yield from comparison.ends


def told(both: Sequence[History], places: Sequence[int | None]) -> Iterator[str]:
    for name, history, place in zip("AB", both, places):
        yield f"    {name}  {event_line(history, place)}"
