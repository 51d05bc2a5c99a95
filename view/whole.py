"""The line of an output that is off, by `verify --whole`: what was due there, and who wrote it."""

from collections.abc import Iterator, Sequence
from dataclasses import dataclass, field
from typing import TYPE_CHECKING

from zorvleid.output import Event

from . import commands
from .history import BASE, ENDINGS
from .images import Written
from .plain import counted
from .standing import Stand, Standing

if TYPE_CHECKING:
    from .explain import Input

LOOKS, VALUES_SHOWN = 17, 8


@dataclass
class Replay:
    """A legal and complete journal, replayed."""

    standing: Standing
    events: Sequence[Event]
    drawn: list[Written | None] = field(default_factory=list)  # by each event
    sums: list[int] = field(default_factory=lambda: [0])  # of all texels, after so many events
    # of each stream's result place: after which event it has which value, and the finishes by then
    told: dict[tuple[int, int], list[tuple[int, int]]] = field(default_factory=dict)
    finishes: dict[int, list[int]] = field(default_factory=dict)

    def run(self) -> None:
        """Takes all events."""
        for number, event in enumerate(self.events, 1):
            self.standing.take(event)
            self.drawn.append(self.standing.written)
            stand = self.standing.of(event)
            if event.kind == "finish":
                self.finishes.setdefault(event.stream, []).append(number)
            for place, value in stand.told.items():
                self.told.setdefault((event.stream, place), []).append((number, value))
            stand.told.clear()

    def writer(self, image: int, x: int, y: int) -> int | None:
        """The last event that wrote a texel, counted from 1."""
        for number, written in reversed(list(enumerate(self.drawn, 1))):
            if (written and written.image == image and written.x <= x < written.x + written.w
                    and written.y <= y < written.y + written.h):
                return number
        return None

    def values(self, stream: int, place: int, flushes: int) -> list[int]:
        """The values of a result place since this number of its stream's flushes is finished."""
        begin = self.finishes[stream][flushes - 1] if flushes else 0
        value = 0
        values: dict[int, None] = {}
        for number, later in self.told.get((stream, place), []):
            if number > begin:
                values[value] = None
            value = later
        return list(values | {value: None})


@dataclass(frozen=True)
class Line:
    """A line that is due, and what else is known of it."""

    what: str
    text: str
    row: tuple[int, int] | None = None  # of which image, and which of its rows
    beside: str = ""  # which other lines may stand there


def image_lines(standing: Standing) -> Iterator[Line]:
    for number, picture in sorted(standing.images.pictures.items()):
        yield Line("image", f"image {number} {picture.width} {picture.height}")
        for y in range(picture.height):
            [row] = picture.rows(0, y, picture.width, 1)
            yield Line("image", row.hex(" ", 4), (number, y))


def end_of(stand: Stand) -> str:
    """How a stream ended, as its line says it."""
    if stand.gone is None:
        return "done"
    return "closed" if stand.gone.kind == "close" else f"lost {stand.gone.code}"


def stream_lines(standing: Standing) -> Iterator[Line]:
    for number, stand in enumerate(standing.streams, 1):
        yield Line("stream",
                   f"stream {number} {end_of(stand)} entries {stand.entries} release "
                   f"{stand.release} token {stand.last_token} words {stand.fetched} errors "
                   + " ".join(map(str, stand.errors.values())))


def mark_lines(standing: Standing) -> Iterator[Line]:
    for wait in standing.waits.ended:
        value = (BASE + 4 * wait.number + ENDINGS[wait.how]) % 2**32
        yield Line("mark", f"mark {wait.stream} {wait.number} {wait.target} {wait.release} "
                           f"{wait.how} {value}")


def dump_lines(replay: Replay) -> Iterator[Line]:
    for number, stand in enumerate(replay.standing.streams, 1):
        if stand.gone is not None and stand.gone.kind == "lost":
            continue
        for action, place in stand.known.dumps:
            flushes = sum(before < action for before in stand.known.flushes)
            first, *others = replay.values(number, place, flushes)
            shown = ", ".join(f"{value:08x}" for value in others[:VALUES_SHOWN])
            more = len(others) - VALUES_SHOWN
            beside = f"or one of the later values of result place {place}: {shown}" + (
                f" and {more} more" if more > 0 else "")
            yield Line("dump", f"dump {number} {action} {place} {first:08x}",
                       beside=beside if others else "")


def due_lines(replay: Replay) -> Iterator[Line]:
    """The lines after the journal, up to those of views."""
    yield from image_lines(replay.standing)
    yield from stream_lines(replay.standing)
    yield from mark_lines(replay.standing)
    yield from dump_lines(replay)


def on_row(
    given: "Input", replay: Replay, row: tuple[int, int], due: str, text: str
) -> Iterator[str]:
    """The first texel of a row that differs, its last writer, and the two values."""
    image, y = row
    wanted, found = due.split(" "), text.split(" ")
    x = next((x for x, (want, have) in enumerate(zip(wanted, found)) if want != have), None)
    if x is None:
        yield f"the row has {counted(len(wanted), 'texel')}, and the line {len(found)}"
        return
    yield f"texel {x}, {y} of image {image}: {wanted[x]} is due, and {found[x]} stands there"
    if number := replay.writer(image, x, y):
        event = replay.events[number - 1]
        yield f"last written by event {number} of the journal, {given.place(event.line)}:"
        yield f"    {event.text}"
        yield f"    {commands.parse(event.words).command.sentence}"


def on_view(replay: Replay, place: int, before: str, text: str) -> Iterator[str]:
    """Which looks may stand at a place among the view lines, counted from 0."""
    viewer, look, events = 1 + place // LOOKS, 1 + place % LOOKS, len(replay.events)
    least = int(before.split(" ")[2]) if look > 1 else 0
    least = events if look == LOOKS else least
    words = text.split(" ")
    yield (
        f"wanted: look {look} of viewer {viewer}: `view {viewer} E X`, where E is "
        + (f"{events}, all events," if least == events else f"from {least} to {events}")
        + f"{' ' if least == events else ', '}and X the sum of all texels after E events"
    )
    if len(words) == 4 and words[2].isdigit() and least <= int(words[2]) <= events:
        count = int(words[2])
        standing = Standing([Stand(stand.plan) for stand in replay.standing.streams],
                            list(replay.standing.numbers))
        for event in replay.events[:count]:
            standing.take(event)
        total = sum(int.from_bytes(picture.texels[at:at + 4], "big")
                    for picture in standing.images.pictures.values()
                    for at in range(0, len(picture.texels), 4)) % 2**32
        yield f"wanted: view {viewer} {count} {total:08x}, if it is of {count} events"


def on_line(given: "Input", line: int, what: str) -> Iterator[str]:
    """What a line is that is off, and what was due in its place."""
    text = given.text(line)
    yield f"{given.place(line)} " + ("is missing:" if text is None else f"is off ({what}):")
    if text is not None:
        yield f"    {text}"
    assert given.journal is not None
    place = line - given.journal - 1
    if place < len(given.heads):
        yield f"wanted: {given.heads[place]}"
        return
    standing = Standing([Stand(plan) for plan in given.script.plans], given.script.names)
    replay = Replay(standing, given.events)
    replay.run()
    place -= len(given.heads) + len(given.events)
    lines = list(due_lines(replay))
    if place < len(lines):
        due = lines[place]
        yield f"wanted: {due.text}"
        if due.beside:
            yield due.beside
        if due.row is not None and text is not None:
            yield from on_row(given, replay, due.row, due.text, text)
    elif what == "more":
        yield "wanted: no line, as nothing is due any more"
    else:
        yield from on_view(replay, place - len(lines), given.text(line - 1) or "", text or "")
