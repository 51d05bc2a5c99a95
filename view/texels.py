"""The commands that made a texel: from the last one that set it, through copies, to its beginning.

That is an upload or a clear, or the command that made the image, whose texels are 0.
"""

from collections.abc import Iterator
from dataclasses import dataclass, field
from typing import NamedTuple

from zorvleid.output import Event

from . import commands
from .standing import Bar, Standing
from .table import BYTES_OF_FORMAT, FORMATS
from .working import Deed


class Texel(NamedTuple):
    """A texel of an image."""

    image: int
    x: int
    y: int

    def __str__(self) -> str:
        return f"texel {self.x}, {self.y} of image {self.image}"


class Write(NamedTuple):
    """The rectangle that an event set, made or took away."""

    place: int
    event: Event
    order: int
    command: commands.Command
    text: str
    image: int
    x: int
    y: int
    w: int
    h: int
    kind: str  # `wrote`, `made` or `gone`

    def has(self, texel: Texel) -> bool:
        return (texel.image == self.image and 0 <= texel.x - self.x < self.w
                and 0 <= texel.y - self.y < self.h)


@dataclass(eq=False)
class Writes:
    """All of them up to an event. It is called after each event of a replay."""

    all: list[Write] = field(default_factory=list)
    count: int = 0

    def __call__(self, event: Event, bar: Bar | None, deed: Deed, standing: Standing) -> None:
        written = standing.written
        if written is not None and deed.command is not None and bar is not None:
            self.all.append(Write(self.count, event, bar.number, deed.command, deed.text,
                                  written.image, written.x, written.y, written.w, written.h,
                                  written.kind))
        self.count += 1

    def chain(self, texel: Texel) -> Iterator[tuple[Write, Texel]]:
        """Each write that made a texel, the last one first, with the texel that it set."""
        for write in reversed(self.all):
            if not write.has(texel):
                continue
            yield write, texel
            if write.command.name != "CopyRect":
                return
            texel = source_of(write, texel)

    def taken(self, image: int) -> Write | None:
        """The last write that took an image away."""
        return next((write for write in reversed(self.all)
                     if write.image == image and write.kind == "gone"), None)


def source_of(write: Write, texel: Texel) -> Texel:
    """The texel that a copy took."""
    told = write.command.values
    return Texel(told["source"], told["x"] + texel.x - write.x, told["y"] + texel.y - write.y)


def bytes_of(write: Write, texel: Texel) -> tuple[int, int] | None:
    """Of an upload, the bytes of the texel in the memory, bucket or buffer: the first, how many."""
    told = write.command.values
    if "format" not in told:
        return None
    size = BYTES_OF_FORMAT[told["format"]]
    before = (texel.y - write.y) * write.w + texel.x - write.x
    return told.get("memory_offset", told.get("offset", 0)) + before * size, size


def origin(write: Write, texel: Texel, value: int) -> str:
    """Where a texel has its value from."""
    if write.kind == "made":
        return f"{texel} is 00000000 in the new image"
    if write.command.name == "CopyRect":
        return f"{texel} is {source_of(write, texel)}"
    if (found := bytes_of(write, texel)) is None:
        return f"{texel} is set to {value:08x}"
    told = write.command.values
    store = next(name for name in ("memory", "bucket", "buffer") if name in told)
    first, size = found
    which = f"byte {first}" if size == 1 else f"bytes {first} to {first + size - 1}"
    return (f"{texel} is {value:08x}, {which} of {store} {told[store]} as "
            f"{FORMATS[told['format']]}")


def lines(writes: Writes, texel: Texel, value: int) -> Iterator[str]:
    """The value of a texel, and two lines for each command that made it."""
    yield f"{texel} is {value:08x} after event {writes.count}"
    wide = len(str(writes.count))
    for write, of in writes.chain(texel):
        yield (f"{write.place + 1:>{wide}}  stream {write.event.stream}  order {write.order}  "
               f"{write.command.sentence}; {write.text}")
        yield f"{'':>{wide}}  {origin(write, of, value)}"


def record(writes: Writes, texel: Texel, value: int) -> dict[str, object]:
    """The same, as docs/who.schema.json has it."""
    made = []
    for write, of in writes.chain(texel):
        found = bytes_of(write, of)
        made.append({
            "event": write.place + 1, "line": write.event.line, "stream": write.event.stream,
            "order": write.order, "command": write.command.name, "arguments": write.command.values,
            "texel": of._asdict(),
            "source": source_of(write, of)._asdict() if write.command.name == "CopyRect" else None,
            "bytes": {"first": found[0], "count": found[1]} if found else None,
        })
    return {"texel": texel._asdict(), "event": writes.count, "value": f"{value:08x}",
            "commands": made}
