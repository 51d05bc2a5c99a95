"""Random texts of commands, each made from a number, with the words that must be executed.

All commands of a text are right, so no stream is lost and each command is executed in its order.
The headers are those of the table in docs/FORMATS.md. `text(seed)` is the same on every machine.
"""

import re
from dataclasses import dataclass, field

from tests.hostile import Draw
from tools.places import TOP

FORMATS = TOP / "docs/FORMATS.md"
ROW = re.compile(r"^\| \d+ \| (\w+) \| \d+(?: or more)? \| .* \| ([0-9a-f]{8}) \|$", re.MULTILINE)
HEADERS = {
    name: int(header, 16) for name, header in ROW.findall(FORMATS.read_text(encoding="utf-8"))
}
TEXELS = {"RGBA8": (1, 4), "RGB565": (2, 2), "RGBA4444": (3, 2), "L8": (4, 1)}
WIDE = ("release", "id")
RELEASES = (0, 1, 2, 3, 7, 2**32, 2**64 - 1)
WORD = 2**32
Command = tuple[str, dict[str, int | str], list[int]]  # the name, the arguments and the data


@dataclass
class Text:
    """A text, whether it goes with --await, and the words that are executed, but for Noops."""

    lines: list[str]
    awaits: bool
    executed: list[list[list[int]]] = field(default_factory=list)

    def __str__(self) -> str:
        return "".join(line + "\n" for line in self.lines)


class Client:
    """A stream whose commands fit its memories, buckets and buffers."""

    def __init__(self, draw: Draw, number: int, streams: int, text: Text) -> None:
        self.draw, self.which, self.streams, self.text = draw, number, streams, text
        self.ring = draw.of((16, 20, 32, 64, 100))
        self.buckets: dict[int, int] = {}
        self.buffers: dict[int, int] = {}
        self.memories = {draw.below(16): draw.between(1, 8)}
        self.results = {draw.below(16): draw.between(1, 8)}
        self.release = self.token = 0
        self.executed: list[list[int]] = []

    # --- Commands ---

    def command(self) -> Command:
        """A command that loses no stream: its name, its arguments, and its data."""
        kinds = [self.image, self.image, self.order, self.bucket, self.buffer, self.noop]
        while (found := self.draw.of(kinds)()) is None:
            pass
        return found

    def noop(self) -> Command:
        return "Noop", {"size": self.draw.between(1, 4)}, []

    def order(self) -> Command:
        self.release, self.token = self.release + 1, self.token + 1
        release = self.draw.of(RELEASES)
        commands: tuple[Command, ...] = (
            ("InsertFence", {"release": self.release if self.draw.chance(80) else release}, []),
            (
                "WaitToken",
                {"stream": self.draw.below(self.streams + 2), "release": release},
                [],
            ),
            (
                "WaitSyncToken",
                {
                    "namespace": self.draw.below(3),
                    "id": self.draw.of(RELEASES),
                    "release": release,
                },
                [],
            ),
            (
                "SetToken",
                {"token": self.token if self.draw.chance(80) else self.draw.below(WORD)},
                [],
            ),
        )
        return self.draw.of(commands)

    def image(self) -> Command | None:
        image, box = self.draw.below(4), {key: self.draw.below(5) for key in ("x", "y", "w", "h")}
        memory = self.draw.of(sorted(self.memories))
        form = self.draw.of(sorted(TEXELS))
        size = box["w"] * box["h"] * TEXELS[form][1]
        commands: tuple[Command | None, ...] = (
            (
                "CreateImage",
                {
                    "image": image,
                    "width": self.draw.between(1, 6),
                    "height": self.draw.between(0, 6),
                },
                [],
            ),
            ("DeleteImage", {"image": image}, []),
            ("ClearRect", {"image": image, **box, "texel": self.draw.below(WORD)}, []),
            (
                "CopyRect",
                {
                    "source": image,
                    "x": 0,
                    "y": 1,
                    "target": self.draw.below(4),
                    "x2": 2,
                    "y2": 0,
                    "w": box["w"],
                    "h": box["h"],
                },
                [],
            ),
            (
                "UploadRect",
                {
                    "image": image,
                    **box,
                    "format": form,
                    "memory": memory,
                    "memory_offset": self.offset(4 * self.memories[memory], size),
                },
                [],
            )
            if size <= 4 * self.memories[memory]
            else None,
            self.from_bytes(
                "UploadBucket",
                "bucket",
                self.buckets,
                {"image": image, **box, "format": form},
                size,
            ),
            self.from_bytes(
                "UploadBuffer",
                "buffer",
                self.buffers,
                {"image": image, **box, "format": form},
                size,
            ),
        )
        return self.draw.of(commands)

    def from_bytes(
        self, name: str, key: str, there: dict[int, int], arguments: dict[str, int | str], size: int
    ) -> Command | None:
        """An upload from a bucket or a buffer that has enough bytes."""
        fitting = [number for number in sorted(there) if there[number] >= size]
        if not fitting:
            return None
        number = self.draw.of(fitting)
        offset = {"offset": self.offset(there[number], size)} if key == "buffer" else {}
        return name, {**arguments, key: number, **offset}, []

    def offset(self, there: int, size: int) -> int:
        return self.draw.below(there - size + 1)

    def bucket(self) -> Command | None:
        bucket = self.draw.below(4)
        if bucket not in self.buckets:
            self.buckets[bucket] = self.draw.below(20)
            return "SetBucketSize", {"bucket": bucket, "size": self.buckets[bucket]}, []
        size = self.draw.below(self.buckets[bucket] + 1)
        offset = self.offset(self.buckets[bucket], size)
        part: dict[str, int | str] = {"bucket": bucket, "offset": offset, "size": size}
        memory, result = self.draw.of(sorted(self.memories)), self.draw.of(sorted(self.results))
        room, whole = 4 * self.results[result], 4 * self.results[result] - self.draw.below(2) * 4
        got = min(size, room)
        commands: tuple[Command | None, ...] = (
            (
                "SetBucketDataImmediate",
                part,
                [self.draw.below(WORD) for _ in range((size + 3) // 4)],
            ),
            (
                "SetBucketData",
                {
                    **part,
                    "memory": memory,
                    "memory_offset": self.offset(4 * self.memories[memory], size),
                },
                [],
            )
            if size <= 4 * self.memories[memory]
            else None,
            (
                "GetBucketStart",
                {
                    "bucket": bucket,
                    "result_memory": result,
                    "result_offset": 4 * self.draw.below(room // 4),
                    "data_size": whole,
                    "data_memory": result,
                    "data_offset": 0,
                },
                [],
            ),
            (
                "GetBucketData",
                {**part, "size": got, "memory": result, "memory_offset": (room - got) // 4 * 4},
                [],
            ),
        )
        return self.draw.of(commands)

    def buffer(self) -> Command | None:
        buffer = self.draw.below(4)
        if buffer not in self.buffers:
            self.buffers[buffer] = self.draw.below(20)
            return "CreateBuffer", {"buffer": buffer, "size": self.buffers[buffer]}, []
        memory, size = self.draw.of(sorted(self.memories)), self.draw.below(
            self.buffers[buffer] + 1
        )
        if self.draw.chance(20):
            del self.buffers[buffer]
            return "DeleteBuffer", {"buffer": buffer}, []
        if size > 4 * self.memories[memory]:
            return None
        return (
            "BufferData",
            {
                "buffer": buffer,
                "offset": self.offset(self.buffers[buffer], size),
                "size": size,
                "memory": memory,
                "memory_offset": self.offset(4 * self.memories[memory], size),
            },
            [],
        )

    # --- Lines ---

    def words(self, name: str, arguments: dict[str, int | str], data: list[int]) -> list[int]:
        """The entries of a command."""
        words = [HEADERS[name] + len(data)]
        for key, argument in arguments.items():
            number = TEXELS[argument][0] if isinstance(argument, str) else argument
            words += [number % WORD, number >> 32] if key in WIDE else [number]
        return words + data

    def line(self, name: str, arguments: dict[str, int | str], data: list[int]) -> str:
        """A command as one may write it: its keys in any order, and its numbers in either base."""
        pairs = [f"{key}={self.number(argument)}" for key, argument in arguments.items()]
        if data:
            stored = b"".join(word.to_bytes(4, "little") for word in data).hex()
            pairs.append(
                f"bytes={stored}"
                if self.draw.chance(50)
                else "data=" + ",".join(map(self.number, data))
            )
        return " ".join([name, *sorted(pairs, key=lambda _: self.draw.word())])

    def number(self, argument: int | str) -> str:
        if isinstance(argument, str):
            return argument if self.draw.chance(80) else str(TEXELS[argument][0])
        return f"0x{argument:x}" if self.draw.chance(30) else str(argument)

    def block(self) -> list[str]:
        """Some commands and their flush."""
        lines, left = [], self.ring // 2 - 1
        for _ in range(self.draw.below(5)):
            kept = dict(self.buckets), dict(self.buffers)
            command = self.command()
            is_noop = command[0] == "Noop"
            size = int(command[1]["size"]) if is_noop else len(self.words(*command))
            if size > left:
                self.buckets, self.buffers = kept
                continue
            left -= size
            lines.append(self.line(*command))
            if command[0] != "Noop":
                self.executed.append(self.words(*command))
        fences = [
            f"{self.draw.below(self.streams + 2)}:{self.draw.of(RELEASES)}"
            for _ in range(self.draw.of((0, 0, 1, 3)))
        ]
        return [*lines, " ".join(["flush", *(["after", *fences] if fences else [])])]

    def stream(self) -> list[str]:
        """All lines of the stream."""
        lines = [f"stream {self.which} {self.draw.of(('high', 'normal', 'low'))} {self.ring}"]
        lines += [f"memory {number} {words}" for number, words in self.memories.items()]
        lines += [f"results {number} {words}" for number, words in self.results.items()]
        for _ in range(self.draw.between(1, 6)):
            lines += self.block()
            if not self.text.awaits or self.draw.chance(20):
                lines.append(self.draw.of(("finish", "finish", f"dump {min(self.results)} 0")))
        return [*lines, "finish", "close"] if self.draw.chance(20) else lines


def text(seed: int) -> Text:
    """The text of a seed."""
    draw = Draw(seed)
    made = Text(["gpu-commands 1"], draw.chance(60))
    streams = draw.of((1, 2, 3, 5))
    for number in range(1, streams + 1):
        client = Client(draw, number, streams, made)
        made.lines += client.stream()
        made.executed.append(client.executed)
    return made
