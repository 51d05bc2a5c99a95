"""How things stand after an event: streams, waits, buckets, buffers and images."""

from collections.abc import Iterator

from zorvleid.output import Output

from .commands import ERRORS
from .images import TEXELS_AT_MOST, Picture
from .plain import counted, joined
from .standing import Stand, Standing
from .trace import name_of_stream
from .waits import Wait
from .whole import end_of

Record = dict[str, object]


def pending(standing: Standing) -> list[Wait]:
    """The waits that hold order numbers back, by number."""
    found = (wait for numbers in standing.waits.of.values() for waits in numbers.values()
             for wait in waits)
    return sorted(found, key=lambda wait: (wait.number, wait.position))


def by_size(standing: Standing) -> list[tuple[int, Picture]]:
    """The images, the largest first."""
    return sorted(standing.images.pictures.items(),
                  key=lambda item: (-item[1].width * item[1].height, item[0]))


# --- As a record ---


def record_of(number: int, stand: Stand, name: tuple[int, int]) -> Record:
    """The facts of a stream. Its order numbers are those that are unprocessed."""
    return {
        "stream": number, "namespace": name[0], "id": name[1],
        "end": end_of(stand) if stand.gone else None,
        "orders": [bar.number for bar in stand.open],
        "flushes": stand.ordered, "finished": stand.finished, "get": stand.get,
        "release": stand.release, "token": stand.last_token, "entries": stand.entries,
        "words": stand.fetched, "errors": dict(stand.errors),
        "buckets": [{"bucket": key, "bytes": len(data)}
                    for key, data in sorted(stand.buckets.items())],
        "buffers": [{"buffer": key, "bytes": len(data)}
                    for key, data in sorted(stand.buffers.items())],
    }


def names_of(output: Output) -> list[tuple[int, int]]:
    return output.names or [(0, stream.number) for stream in output.streams]


def record(output: Output, standing: Standing) -> Record:
    """All that stands, as docs/state.schema.json has it."""
    return {
        "event": standing.count, "events": len(output.events),
        "streams": [record_of(number, stand, name) for number, (stand, name)
                    in enumerate(zip(standing.streams, names_of(output)), 1)],
        "waits": [{"stream": wait.stream, "order": wait.number, "target": wait.target,
                   "release": wait.release, "by": wait.by, "made": wait.made + 1}
                  for wait in pending(standing)],
        "images": [{"image": number, "width": picture.width, "height": picture.height}
                   for number, picture in by_size(standing)],
    }


# --- In words ---


def doing(stand: Stand, waits: list[Wait]) -> str:
    """What a stream does."""
    if stand.gone is not None:
        code = ERRORS.get(stand.gone.code)
        return f"{end_of(stand)} ({code})" if code else end_of(stand)
    if not stand.open:
        return "has no order to work on"
    first, *later = (bar.number for bar in stand.open)
    is_held = any(wait.number == first for wait in waits)
    text = f"{'waits with' if is_held else 'can work on'} order {first}"
    return text + (f", then {joined(later)}" if later else "")


def lines_of(stand: Stand) -> Iterator[str]:
    """The counts of a stream, and its buckets and buffers."""
    errors = ", ".join(f"{count:,} of {error}" for error, count in stand.errors.items() if count)
    yield (f"  {counted(stand.ordered, 'flush', 'flushes')}, {stand.finished:,} finished; "
           f"get {stand.get}; {counted(stand.entries, 'entry', 'entries')} executed, "
           f"{counted(stand.fetched, 'word')} fetched" + (f"; errors: {errors}" if errors else ""))
    yield f"  release {stand.release}, token {stand.last_token}"
    for sort, things in (("bucket", stand.buckets), ("buffer", stand.buffers)):
        for number, data in sorted(things.items()):
            yield f"  {sort} {number}: {counted(len(data), 'byte')}"


def lines(output: Output, standing: Standing) -> Iterator[str]:
    """All that stands, a line each."""
    waits = pending(standing)
    yield f"after event {standing.count} of {len(output.events)}"
    for number, stand in enumerate(standing.streams, 1):
        yield f"{name_of_stream(output, number)}: {doing(stand, waits)}"
        yield from lines_of(stand)
    yield counted(len(waits), "wait")
    for wait in waits:
        target = standing.streams[wait.target - 1]
        by = "a fence" if wait.by == "fence" else wait.by
        yield (f"  order {wait.number} of stream {wait.stream} waits for {wait}, which has come to "
               f"{target.release}, by {by} since event {wait.made + 1}")
    found = by_size(standing)
    texels = sum(picture.width * picture.height for _, picture in found)
    yield f"{counted(len(found), 'image')}, {texels:,} of {TEXELS_AT_MOST:,} texels"
    for number, picture in found:
        yield (f"  image {number}: {picture.width} by {picture.height}, "
               f"{counted(picture.width * picture.height, 'texel')}")
