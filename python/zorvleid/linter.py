"""What of a lawful script is most likely a mistake.

Nothing is refused here, and the program takes what is noted. The words of a flush are those that
its client had put by then. Where the client overwrites them before it waits for the service, nobody
knows which words the service reads, and nothing is said from there on.
"""

from bisect import bisect_right
from collections.abc import Iterable, Iterator, Sequence
from dataclasses import dataclass, field

from .commands import BYTES_OF_FORMAT, IMMEDIATE, NOOP, TABLE, Decoded, decode, parts_of
from .ring import Ring
from .script import Dump, Finish, Flush, Put, Script, Stream, Token

NUMBER_AT_MOST, BYTES_AT_MOST, WORDS_AT_MOST = 15, 262_144, 1_048_576
# Where a command names memories: the sort, the keys of memory and offset, and that of the size.
SPANS = {
    "SetBucketData": (("memory", "memory", "memory_offset", "size"),),
    "BufferData": (("memory", "memory", "memory_offset", "size"),),
    "UploadRect": (("memory", "memory", "memory_offset", ""),),
    "GetBucketData": (("results", "memory", "memory_offset", "size"),),
    "GetBucketStart": (
        ("results", "result_memory", "result_offset", ""),
        ("results", "data_memory", "data_offset", "data_size"),
    ),
}


@dataclass(frozen=True)
class Note:
    """A line of the text, which is 0 for a script that was made by calls, and a sentence."""

    line: int
    why: str


def spans_of(told: Decoded) -> Iterator[tuple[str, int, int, int]]:
    """The ranges of memories of a command: the sort, the memory, the offset and the bytes."""
    given = told.arguments
    for sort, memory, offset, size in SPANS.get(told.command.name if told.command else "", ()):
        count = given[size] if size else 4
        if "format" in given:
            count = given["w"] * given["h"] * BYTES_OF_FORMAT[given["format"]]
        if size != "data_size" or count:
            yield sort, given[memory], given[offset], count


def fault_of_header(header: int, room: int) -> str | None:
    """Why a header loses its stream, or None."""
    number, size = parts_of(header)
    command = TABLE.get(number)
    if size == 0:
        return "its size is 0"
    if size > room:
        return f"its size is {size}, and there is room for {room}"
    if command is None:
        return f"no command has the id {number}"
    return None if command.fits(size) else f"{command.name} cannot have the size {size}"


def fault_of_command(told: Decoded, stream: Stream) -> str | None:
    """Why a command with a right header loses its stream, whatever came before it, or None."""
    given = told.arguments
    if given.get("format", 1) not in BYTES_OF_FORMAT:
        return f"no format has the number {given['format']}"
    for sort in ("bucket", "buffer"):
        if given.get(sort, 0) > NUMBER_AT_MOST:
            return f"{sort} {given[sort]} is above {NUMBER_AT_MOST}"
    name = told.command.name if told.command else ""
    if name in ("SetBucketSize", "CreateBuffer") and given["size"] > BYTES_AT_MOST:
        return f"{given['size']} bytes are more than {BYTES_AT_MOST}"
    if told.command is IMMEDIATE and given["size"] > 4 * len(told.data):
        return f"its data has {4 * len(told.data)} bytes, and the size is {given['size']}"
    for sort, memory, offset, count in spans_of(told):
        words = stream.memories[sort].get(memory)
        if sort == "results" and offset % 4:
            return f"the offset {offset} is not a multiple of 4"
        if words is None:
            return f"the stream has no `{sort} {memory}`"
        if offset + count > 4 * words:
            end = offset + count
            return f"`{sort} {memory}` has {4 * words} bytes, and the range ends at {end}"
    return None


@dataclass
class Uses:
    """The images that commands name, with the line where each was made last."""

    made: dict[int, list[int]] = field(default_factory=dict)
    gone: dict[int, int] = field(default_factory=dict)
    read: set[int] = field(default_factory=set)
    is_whole: bool = True  # whether all commands are known

    def take(self, told: Decoded, line: int) -> None:
        """Takes a command of a line."""
        given = told.arguments
        match told.command.name if told.command else "":
            case "CreateImage":
                self.made.setdefault(given["image"], []).append(line)
            case "DeleteImage":
                self.gone[given["image"]] = self.gone.get(given["image"], 0) + 1
            case "CopyRect":
                self.read.add(given["source"])

    def notes(self) -> Iterator[Note]:
        """The images that are deleted as often as they are made, and that no command reads."""
        for image, lines in self.made.items() if self.is_whole else ():
            if self.gone.get(image, 0) >= len(lines) and image not in self.read:
                yield Note(lines[0], f"image {image} is deleted, and no command reads it before")


class Walk:
    """The items of one stream, one after another, as the service meets what they put."""

    def __init__(self, script: Script, stream: Stream, uses: Uses) -> None:
        self.stream, self.uses = stream, uses
        self.names = [each.name for each in script.streams]
        self.ring = Ring(stream.ring.size)
        self.words: dict[int, tuple[int, int]] = {}  # by place: the value, and the line of its put
        self.fetched = 0  # entries, without the words of memories
        self.is_read = True  # whether the service still reads what was put, and that is known
        self.stores: dict[int, list[int]] = {}  # by place: the items that store there
        self.awaits = [len(stream.items)] * (len(stream.items) + 1)  # from each item: the next wait
        for at, item in reversed(list(enumerate(stream.items))):
            is_wait = isinstance(item, (Finish, Dump, Token))
            self.awaits[at] = at if is_wait else self.awaits[at + 1]
        for at, item in enumerate(stream.items):
            if isinstance(item, Put):
                for place in range(item.place, item.place + len(item.values)):
                    self.stores.setdefault(place, []).append(at)

    def notes(self) -> Iterator[Note]:
        """What is most likely a mistake."""
        items, lines = self.stream.items, self.stream.origins
        last = max((at for at, it in enumerate(items) if isinstance(it, Flush)), default=-1)
        is_told = False
        for at, item in enumerate(items):
            line = lines[at] if at < len(lines) else 0
            match item:
                case Put(place, values):
                    if at > last and not is_told and not self.ring.busy(place, len(values)):
                        is_told = True
                        yield Note(line, "no `flush` hands over what is put here")
                    self.words |= {place + n: (value, line) for n, value in enumerate(values)}
                    for n, value in enumerate(values):
                        self.ring.store(place + n, value)
                case Flush(put, fences):
                    yield from self.waits(line, (fence[:-1] for fence in fences))
                    begin = self.ring.handed
                    self.ring.flush(put)
                    yield from self.flushed(at, line, put, begin)
                case Finish() | Dump():
                    self.ring.finish()
                case Token(token):
                    self.ring.token(token)

    def is_raced(self, at: int, places: Iterable[int]) -> bool:
        """Whether the client stores there after a flush, before it waits for anything."""
        return any(
            (after := bisect_right(items, at)) < len(items) and items[after] < self.awaits[at]
            for items in (self.stores.get(place, []) for place in places)
        )

    def waits(self, line: int, targets: Iterable[Sequence[int]]) -> Iterator[Note]:
        """The waits that are dropped at once, by whom they wait for."""
        for target in targets:
            name = (target[0], target[1]) if len(target) == 2 else (0, target[0])
            shown = ":".join(map(str, target))
            if name == self.stream.name:
                yield Note(line, f"stream {shown} waits for itself: the wait is dropped")
            elif name not in self.names:
                yield Note(line, f"there is no stream {shown}: the wait is dropped")

    def flushed(self, at: int, line: int, put: int, begin: int) -> Iterator[Note]:
        """What the commands of a flush do, up to the first one that loses the stream."""
        size, position = self.ring.size, begin
        if put >= size and self.is_read:
            self.is_read = False
            why = f"PUT is {put}, and the ring has the places 0 to {size - 1}"
            yield Note(line, f"the stream is lost here: {why}")
        while self.is_read and position < self.ring.handed:
            place = position % size
            header, origin = self.words.get(place, (0, line))
            room = (put if put > place else size) - place
            size_told = parts_of(header)[1]
            entries = 1 if header >> 21 == NOOP.id else max(1, min(size_told, room))
            if self.is_raced(at, range(place, place + entries)):
                self.is_read = self.uses.is_whole = False
                return
            self.fetched += entries
            told = decode([self.words.get(place + n, (0, 0))[0] for n in range(entries)])
            fault = fault_of_header(header, room) or fault_of_command(told, self.stream)
            if self.fetched > WORDS_AT_MOST:
                fault = fault or f"with it the stream has fetched above {WORDS_AT_MOST} words"
            if fault is not None:
                self.is_read = False
                yield Note(origin, f"this command loses the stream: {fault}")
                return
            yield from self.waits(origin, targets_of(told))
            self.uses.take(told, origin)
            position += size_told


def targets_of(told: Decoded) -> Iterator[Sequence[int]]:
    """Whom a command waits for."""
    given = told.arguments
    match told.command.name if told.command else "":
        case "WaitToken":
            yield (given["stream"],)
        case "WaitSyncToken":
            yield given["namespace"], given["id"]


def lint(script: Script) -> list[Note]:
    """The notes on a script, in the order of their lines.

    >>> from zorvleid import Script
    >>> script = Script()
    >>> script.stream(ring=16).insert_fence(release=1)
    >>> [note.why for note in lint(script)]
    ['no `flush` hands over what is put here']
    """
    uses = Uses()
    found = [note for stream in script.streams for note in Walk(script, stream, uses).notes()]
    return sorted([*found, *uses.notes()], key=lambda note: note.line)
