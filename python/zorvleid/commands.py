"""The one table of commands, which docs/FORMATS.md has too, and how words are made and read.

Nothing is judged here. Words that are no command are read as what they are.
"""

from collections.abc import Mapping, Sequence
from dataclasses import dataclass

SIZE_BITS = 21
WORD, LONG = 2**32 - 1, 2**64 - 1  # the greatest number of one entry, and of two

WIDE = ("release", "id")  # arguments of two entries, the low one first
FORMATS = {1: "RGBA8", 2: "RGB565", 3: "RGBA4444", 4: "L8"}
BYTES_OF_FORMAT = {1: 4, 2: 2, 3: 2, 4: 1}
ERRORS = {
    1: "InvalidSize",
    2: "OutOfBounds",
    3: "UnknownCommand",
    4: "InvalidArguments",
    6: "Quota",
}


@dataclass(frozen=True)
class Command:
    """A row of the table: the keys of the arguments stand in the order of their entries."""

    id: int
    name: str
    keys: tuple[str, ...]
    has_data: bool = False  # entries of data may stand after the arguments

    @property
    def size(self) -> int:
        """The least size in entries, the header included."""
        return 1 + sum(entries_of(key) for key in self.keys)

    def header(self, size: int) -> int:
        """The first entry of a command of this size."""
        return (self.id << SIZE_BITS) + size

    def fits(self, size: int) -> bool:
        """Whether the command may have this size."""
        return size >= self.size if self.has_data else size == self.size


def entries_of(key: str) -> int:
    """How many entries an argument takes."""
    return 2 if key in WIDE else 1


def _row(number: int, name: str, keys: str) -> Command:
    """A row as text; a `+` stands for entries of data."""
    return Command(number, name, tuple(keys.replace("+", "").split()), "+" in keys)


TABLE = {
    command.id: command
    for command in (
        _row(0, "Noop", "+"),
        _row(1, "SetToken", "token"),
        _row(2, "SetBucketSize", "bucket size"),
        _row(3, "SetBucketData", "bucket offset size memory memory_offset"),
        _row(4, "SetBucketDataImmediate", "bucket offset size +"),
        _row(
            5,
            "GetBucketStart",
            "bucket result_memory result_offset data_size data_memory data_offset",
        ),
        _row(6, "GetBucketData", "bucket offset size memory memory_offset"),
        _row(256, "InsertFence", "release"),
        _row(257, "WaitToken", "stream release"),
        _row(258, "CreateImage", "image width height"),
        _row(259, "DeleteImage", "image"),
        _row(260, "ClearRect", "image x y w h texel"),
        _row(261, "CopyRect", "source x y target x2 y2 w h"),
        _row(262, "UploadRect", "image x y w h format memory memory_offset"),
        _row(263, "UploadBucket", "image x y w h format bucket"),
        _row(264, "CreateBuffer", "buffer size"),
        _row(265, "DeleteBuffer", "buffer"),
        _row(266, "BufferData", "buffer offset size memory memory_offset"),
        _row(267, "UploadBuffer", "image x y w h format buffer offset"),
        _row(268, "WaitSyncToken", "namespace id release"),
    )
}
NAMED = {command.name: command for command in TABLE.values()}
NOOP, SET_TOKEN, IMMEDIATE = NAMED["Noop"], NAMED["SetToken"], NAMED["SetBucketDataImmediate"]


def parts_of(header: int) -> tuple[int, int]:
    """The id and the size that a header says."""
    return header >> SIZE_BITS, header & (1 << SIZE_BITS) - 1


@dataclass(frozen=True)
class Decoded:
    """The words of a command, read by the table: those of its arguments and data that are there."""

    id: int
    size: int
    command: Command | None
    arguments: dict[str, int]
    data: tuple[int, ...]


def decode(words: Sequence[int]) -> Decoded:
    """The command that words begin with; of a Noop the header alone is looked at."""
    number, size = parts_of(words[0]) if words else (0, 0)
    command = TABLE.get(number)
    if command is None or command is NOOP:
        return Decoded(number, size, command, {}, ())
    arguments, at, end = {}, 1, min(size, len(words))
    for key in command.keys:
        entries = entries_of(key)
        if at + entries > end:
            break
        arguments[key] = words[at] + (words[at + 1] << 32 if entries == 2 else 0)
        at += entries
    return Decoded(number, size, command, arguments, tuple(words[at:end]))


def encode(command: Command, arguments: Mapping[str, int], data: Sequence[int] = ()) -> list[int]:
    """The words of a command, each argument being given by its key."""
    words = []
    for key in command.keys:
        words.append(arguments[key] & WORD)
        if key in WIDE:
            words.append(arguments[key] >> 32)
    return [command.header(1 + len(words) + len(data)), *words, *data]
