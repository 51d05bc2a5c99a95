"""The events that a rule allows instead, where that is plain, and the missing ones of a journal."""

from collections.abc import Callable, Iterable, Iterator

from zorvleid.output import Event, words_of

from . import commands, faults
from .plain import counted, joined
from .script import Plan
from .standing import Stand, Standing

VALUES_SHOWN = 8


# --- Streams and numbers ---


def open_stream(event: Event, standing: Standing) -> Iterator[str]:
    """Why no event of this stream can come; nothing where one can."""
    stand, count = standing.stream(event.stream), len(standing.streams)
    if stand is None:
        yield f"a stream of the script, which has {counted(count, 'stream')}, counted from 1"
    elif stand.gone is not None:
        how = "closed" if stand.gone.kind == "close" else "lost"
        yield (
            f"no event of stream {event.stream}, which is {how} by line {stand.gone.line} "
            f"(`{stand.gone.text}`)"
        )


def next_number(event: Event, standing: Standing) -> Iterator[str]:
    yield f"the order number {standing.drawn + 1}, which is due"


def next_flush(event: Event, standing: Standing) -> Iterator[str]:
    stand = standing.of(event)
    if stand.ordered < len(stand.known.flushes):
        actions = stand.known.flushes[stand.ordered]
        yield (
            f"the flush after {counted(actions, 'action')}, "
            f"so order {event.stream} {event.number} {actions}"
        )
    else:
        yield f"no order, as each flush of stream {event.stream} has one"


def first_number(event: Event, standing: Standing) -> Iterator[str]:
    yield from open_stream(event, standing)
    stand = standing.stream(event.stream)
    if stand is None or stand.gone is not None:
        return
    if stand.open:
        yield (
            f"finish {event.stream} {stand.open[0].number}, as that is the first unprocessed "
            f"number of stream {event.stream}"
        )
    else:
        yield f"an order first: stream {event.stream} has no unprocessed number"


def ended_waits(event: Event, standing: Standing) -> Iterator[str]:
    number = standing.of(event).open[0].number
    for wait in standing.waits.pending(event.stream, number):
        has = standing.streams[wait.target - 1].release
        yield (
            f"the end of a wait first: number {number} waits for stream {wait.target} "
            f"to come to release {wait.release}; it has come to {has}"
        )


# --- Words ---


def header_fault(header: int, room: int | None) -> str | None:
    """The fault of a header, as an error, or None."""
    for check, why in faults.header_faults(header, room):
        return f"{commands.ERRORS[faults.ERROR_OF_CHECK[check]]}: {why}"
    return None


def transfer_places(command: commands.Command, plan: Plan) -> list[int]:
    """The places of the words that a command reads from a memory, where its arguments let it."""
    told = command.values
    if command.name == "UploadRect":
        size = told["w"] * told["h"] * commands.BYTES_OF_FORMAT.get(told["format"], 0)
        lawful = told["format"] in commands.BYTES_OF_FORMAT
    elif command.name in ("SetBucketData", "BufferData"):
        size, lawful = told["size"], told.get("bucket", told.get("buffer", 0)) <= 15
    else:
        return []
    first, words = plan.memories.get(told["memory"], (0, 0))
    offset = told["memory_offset"]
    if not lawful or told["memory"] not in plan.memories or offset + size > 4 * words or size == 0:
        return []
    return list(range(first + offset // 4, first + (offset + size - 1) // 4 + 1))


def places_due(words: list[tuple[int, int]], stand: Stand) -> list[int] | None:
    """The places to fetch, by the words of an event; None where the quota may be passed."""
    values, get = dict(reversed(words)), stand.get
    header = values.get(get, 0)
    if header_fault(header, stand.room):
        return [get]
    size = commands.entries_wanted(header // 2**21, header % 2**21)
    ring = list(range(get, get + size))
    command = commands.decode([(place, values.get(place, 0)) for place in ring])
    places = ring + transfer_places(command, stand.known)
    return places if stand.fetched + len(places) <= faults.WORDS_AT_MOST else None


def fetched_places(event: Event, standing: Standing) -> Iterator[str]:
    stand = standing.of(event)
    number = stand.open[0].number
    if stand.get == stand.put:
        yield f"finish {event.stream} {number}: get has come to PUT, {stand.put}"
    elif stand.put >= stand.known.ring:
        yield (
            f"lost {event.stream} 2 without words: PUT is {stand.put}, and the ring has "
            f"{stand.known.ring} entries"
        )
    elif (places := places_due(words_of(event.words), stand)) is None:
        yield f"a command whose first word is that of place {stand.get}"
    else:
        yield (
            f"the words of {'place' if len(places) == 1 else 'places'} {joined(places)}, each "
            "once, going by this header"
        )
        yield from put_values(event, standing)


def put_values(event: Event, standing: Standing) -> Iterator[str]:
    """The first word that the client cannot have put, and what it could have."""
    stand, words = standing.of(event), words_of(event.words)
    could = stand.known.values_between({place for place, _ in words}, stand.flush, stand.reach)
    place, value = next(
        ((place, value) for place, value in words if value not in could[place]), (None, 0)
    )
    if place is not None:
        known = list(could[place])
        shown = " or ".join(f"{one:08x}" for one in known[:VALUES_SHOWN])
        more = f", or one of {len(known) - VALUES_SHOWN} more" if len(known) > VALUES_SHOWN else ""
        yield f"{shown}{more} at place {place}, where the event has {value:08x}"


def judged_words(event: Event, standing: Standing) -> Iterator[str]:
    stand, words = standing.of(event), words_of(event.words)
    fault = header_fault(words[0][1], stand.room) if words else None
    if fault:
        yield f"the loss of stream {event.stream} by {fault}"
    elif event.kind == "step":
        yield f"the loss of stream {event.stream}: these words fail a check of docs/FORMATS.md"
    else:
        yield (
            f"a step, or another error than {event.code} ({commands.ERRORS[event.code]}), by the "
            "checks of docs/FORMATS.md"
        )


# --- Ends ---


def whole_flush(event: Event, standing: Standing) -> Iterator[str]:
    stand = standing.of(event)
    yield f"a step first: get stands at {stand.get}, and the flush goes up to PUT, {stand.put}"


def due_close(event: Event, standing: Standing) -> Iterator[str]:
    yield from open_stream(event, standing)
    stand = standing.stream(event.stream)
    if stand is None or stand.gone is not None:
        return
    without = len(stand.known.flushes) - stand.ordered
    if not stand.known.closes():
        yield f"no close: the script has none for stream {event.stream}"
    elif without:
        yield (
            f"orders first: {counted(without, 'flush', 'flushes')} of stream {event.stream} "
            "without one"
        )
    else:
        yield f"finishes first: an action before the close of stream {event.stream} still waits"


WANTED: dict[int, Callable[[Event, Standing], Iterator[str]]] = {
    1: open_stream, 2: next_number, 3: next_flush, 4: first_number, 5: ended_waits,
    7: fetched_places, 8: put_values,
    9: judged_words, 10: whole_flush, 11: open_stream, 12: due_close,
}


def wanted(rule: int, event: Event, standing: Standing) -> Iterable[str]:
    """The events that a rule allows instead of one that breaks it."""
    return WANTED[rule](event, standing) if rule in WANTED else ()


# --- The missing events ---


def left_of(number: int, stand: Stand, standing: Standing) -> Iterator[str]:
    """The missing events of a stream, part by part."""
    if stand.gone is not None:
        return
    if stand.open:
        first = stand.open[0].number
        numbers = [bar.number for bar in stand.open]
        yield f"to finish {'number' if len(numbers) == 1 else 'numbers'} {joined(numbers)}"
        for wait in standing.waits.pending(number, first):
            yield f"number {first} waits for stream {wait.target} to come to release {wait.release}"
        if not standing.waits.pending(number, first):
            yield f"get stands at {stand.get}, and PUT of number {first} is {stand.put}"
    without = stand.known.flushes[stand.ordered:]
    if without:
        yield f"to order {len(without)} more, the next after {counted(without[0], 'action')}"
    if stand.known.closes():
        yield "to close it"
