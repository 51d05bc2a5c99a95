"""Hostile scripts, each made from a number: what a client may do out of malice or by chance.

Their clients give commands of wrong sizes, ids and offsets, store into flushed words, wait for
anything, set tokens that fall, read results, and close. Most commands are right, so that streams
get far. Some scripts are tame in one way: only their transfer words race, or only arguments that
lose no stream. `script(seed)` is lawful, and the same on every machine.
"""

from collections.abc import Iterable, Sequence
from typing import TypeVar

from zorvleid.commands import NAMED
from zorvleid.commands import BYTES_OF_FORMAT as BYTES

RELEASES = (0, 1, 1, 2, 2, 3, 3, 4, 5, 6, 8, 2**32, 2**64 - 1)
NAMESPACES = (0, 1, 2, 7, 255)
IDS = (0, 1, 2, 77, 2**32, 2**64 - 1)
EXTREMES = (0, 1, 2, 3, 4, 5, 7, 15, 16, 63, 64, 255, 4096, 4097, 2**21 - 1, 2**21, 2**31,
            2**32 - 4, 2**32 - 1)
COMMANDS = {kind: NAMED[name] for kind, name in (
    ("noop", "Noop"), ("token", "SetToken"), ("size", "SetBucketSize"), ("bucket", "SetBucketData"),
    ("immediate", "SetBucketDataImmediate"), ("start", "GetBucketStart"), ("data", "GetBucketData"),
    ("release", "InsertFence"), ("wait", "WaitToken"), ("create", "CreateImage"),
    ("delete", "DeleteImage"), ("clear", "ClearRect"), ("copy", "CopyRect"),
    ("upload", "UploadRect"), ("from_bucket", "UploadBucket"), ("buffer", "CreateBuffer"),
    ("drop", "DeleteBuffer"), ("write", "BufferData"), ("from_buffer", "UploadBuffer"),
    ("wait_name", "WaitSyncToken"))}
OFTEN = ("clear", "clear", "copy", "copy", "create", "create", "upload", "upload", "upload",
         "release", "release", "wait", "wait", "token", "token", "size", "immediate", "immediate",
         "bucket", "from_bucket", "start", "start", "data", "buffer", "write", "from_buffer",
         "noop", "delete", "drop", "wait_name")
Words = list[tuple[int, int]]  # the words of a command, each with what may stand in its place
Name = tuple[int, int]
T = TypeVar("T")
# What may replace an argument without losing the stream: nothing else, a small number, anything.
HARD, SMALL, ANY = range(3)


class Draw:
    """Numbers by chance, the same for the same seed (splitmix64)."""

    def __init__(self, seed: int) -> None:
        self.state = seed * 0x9E3779B97F4A7C15 % 2**64

    def word(self) -> int:
        self.state = (self.state + 0x9E3779B97F4A7C15) % 2**64
        z = self.state
        z = (z ^ z >> 30) * 0xBF58476D1CE4E5B9 % 2**64
        z = (z ^ z >> 27) * 0x94D049BB133111EB % 2**64
        return z ^ z >> 31

    def below(self, m: int) -> int:
        return self.word() % m

    def between(self, a: int, b: int) -> int:
        return a + self.below(b - a + 1)

    def of(self, things: Sequence[T]) -> T:
        return things[self.below(len(things))]

    def chance(self, percent: int) -> bool:
        return self.below(100) < percent


class Names:
    """How a script names streams: by number in version 1, and by name in version 2."""

    def __init__(self, draw: Draw, version: int, streams: int) -> None:
        self.draw, self.version, self.streams = draw, version, streams
        self.names = [(0, number) for number in range(1, streams + 1)]
        if version == 2:
            self.names = []
            while len(self.names) < streams:
                name = (draw.of(NAMESPACES), draw.of(IDS) if draw.chance(60) else draw.below(10))
                if name not in self.names:
                    self.names.append(name)

    def line(self, number: int, priority: str, ring: int) -> str:
        name = f"{number}" if self.version == 1 else "{} {}".format(*self.names[number - 1])
        return f"stream {name} {priority} {ring}"

    def any_name(self) -> Name:
        return (
            self.draw.of(self.names)
            if self.draw.chance(90)
            else (self.draw.of(NAMESPACES), self.draw.of(IDS))
        )

    def fence(self) -> str:
        release = self.draw.of(RELEASES)
        if self.version == 1:
            return f" {self.draw.below(self.streams + 2)} {release}"
        return " {} {} {}".format(*self.any_name(), release)


class Client:
    """The lines of one stream."""

    def __init__(self, draw: Draw, names: Names, number: int) -> None:
        self.draw, self.names, self.number = draw, names, number
        self.ring = draw.of((16, 32, 48, 64, 64, 128, 512))
        self.lines = [names.line(number, draw.of(("high", "normal", "low")), self.ring)]
        self.memories = self.declared("memory", draw.below(3), 8)
        self.results = self.declared("results", draw.below(3), 6)
        self.bad = draw.of((0, 0, 0, 2, 10))  # of a hundred commands: how many are made wrong
        # stores after a flush: none, into memories, into soft arguments, anywhere
        self.racing = draw.of((0, 1, 1, 2, 3))
        self.patience = draw.of((0, 20, 50, 80))  # of a hundred flushes: how many are awaited
        # how many times as many stores, so that some come while a flush runs
        self.haste = draw.of((1, 1, 1, 1, 1, 30, 200))
        self.put = 0  # where the next command goes
        self.open = 0  # how many entries were flushed since the last await
        self.buckets: dict[int, int] = {}
        self.buffers: dict[int, int] = {}
        self.releases = self.token = 0
        # the places of the last flush, each with what may be stored into it
        self.flushed: Words = []

    def declared(self, kind: str, count: int, words: int) -> dict[int, int]:
        found: dict[int, int] = {}
        while len(found) < count:
            number = self.draw.of((0, 1, 2, 15))
            if number not in found:
                found[number] = self.draw.between(1, words)
                self.lines.append(f"{kind} {number} {found[number]}")
        return found

    # --- Commands ---

    def command(self) -> Words:
        """The words of a command, each with what may stand in its place."""
        draw = self.draw
        kind = draw.of(OFTEN)
        words = self.make(kind)
        if words is None:
            kind, words = "clear", self.make_clear()
        words = [(COMMANDS[kind].header(1 + len(words)), HARD)] + words
        if draw.chance(self.bad):
            at = draw.below(len(words))
            value = (
                words[at][0] + draw.of((-1, 1, 4, 2**21, 2**29))
                if draw.chance(60)
                else draw.of(EXTREMES)
            )
            words[at] = (value % 2**32, words[at][1])
        return words

    def make(self, kind: str) -> Words | None:
        """The arguments of a command, or None where there is nothing that it could be about."""
        match kind:
            case "noop":
                return self.make_noop()
            case "token":
                return self.make_token()
            case "size":
                return self.make_size()
            case "bucket":
                return self.make_bucket()
            case "immediate":
                return self.make_immediate()
            case "start":
                return self.make_start()
            case "data":
                return self.make_data()
            case "release":
                return self.make_release()
            case "wait":
                return self.make_wait()
            case "create":
                return self.make_create()
            case "delete":
                return self.make_delete()
            case "clear":
                return self.make_clear()
            case "copy":
                return self.make_copy()
            case "upload":
                return self.make_upload()
            case "from_bucket":
                return self.make_from_bucket()
            case "buffer":
                return self.make_buffer()
            case "drop":
                return self.make_drop()
            case "write":
                return self.make_write()
            case "from_buffer":
                return self.make_from_buffer()
            case "wait_name":
                return self.make_wait_name()
            case _:
                raise ValueError(f"no command is called {kind}")

    def image(self) -> tuple[int, int]:
        return self.draw.between(1, 5), SMALL

    def small(self, count: int) -> Words:
        return [(self.draw.below(5), SMALL) for _ in range(count)]

    def rectangle(self, form: int) -> tuple[Words, int]:
        """An image, a corner and sides, a format, and how many bytes the texels have."""
        w, h = self.draw.below(4), self.draw.below(3)
        words = [self.image(), *self.small(2), (w, HARD), (h, HARD), (form, HARD)]
        return words, w * h * BYTES[form]

    def span(self, things: dict[int, int], unit: int = 1) -> tuple[int, int, int] | None:
        """A memory, bucket or buffer, with an offset and a number of bytes that fit in; or None."""
        if not things:
            return None
        number = self.draw.of(sorted(things))
        size = things[number] * unit
        offset = self.draw.below(size + 1)
        return number, offset, self.draw.below(size - offset + 1)

    def make_noop(self) -> Words:
        return [(self.draw.of(EXTREMES), ANY) for _ in range(self.draw.below(4))]

    def make_token(self) -> Words:
        self.token = self.draw.below(8) if self.draw.chance(40) else self.token + 1
        return [(self.token, SMALL)]

    def make_size(self) -> Words:
        bucket = self.draw.below(3)
        self.buckets[bucket] = self.draw.below(20)
        return [(bucket, HARD), (self.buckets[bucket], HARD)]

    def make_immediate(self) -> Words | None:
        span = self.span(self.buckets)
        if span:
            return [(part, HARD) for part in span] + [
                (self.draw.below(2**32), ANY) for _ in range((span[2] + 3) // 4)
            ]
        return None

    def make_bucket(self) -> Words | None:
        span, memory = self.span(self.buckets), self.span(self.memories, 4)
        if not span or not memory:
            return None
        size = min(span[2], memory[2])
        return [(part, HARD) for part in (span[0], span[1], size, memory[0], memory[1])]

    def make_buffer(self) -> Words | None:
        buffer = next((number for number in range(3) if number not in self.buffers), None)
        if buffer is None:
            return None
        self.buffers[buffer] = self.draw.below(20)
        return [(buffer, HARD), (self.buffers[buffer], HARD)]

    def make_drop(self) -> Words | None:
        if not self.buffers:
            return None
        buffer = self.draw.of(sorted(self.buffers))
        del self.buffers[buffer]
        return [(buffer, HARD)]

    def make_write(self) -> Words | None:
        span, memory = self.span(self.buffers), self.span(self.memories, 4)
        if not span or not memory:
            return None
        return [(part, HARD)
                for part in (span[0], span[1], min(span[2], memory[2]), memory[0], memory[1])]

    def make_start(self) -> Words | None:
        if not self.buckets or not self.results:
            return None
        memory, other = self.draw.of(sorted(self.results)), self.draw.of(sorted(self.results))
        size = self.draw.below(4 * self.results[other] + 1)
        offset = 4 * self.draw.below((4 * self.results[other] - size) // 4 + 1)
        place = 4 * self.draw.below(self.results[memory])
        return [
            (part, HARD)
            for part in (self.draw.of(sorted(self.buckets)), memory, place, size, other, offset)
        ]

    def make_data(self) -> Words | None:
        span = self.span(self.buckets)
        if not span or not self.results:
            return None
        memory = self.draw.of(sorted(self.results))
        size = min(span[2], 4 * self.results[memory])
        offset = 4 * self.draw.below((4 * self.results[memory] - size) // 4 + 1)
        return [(part, HARD) for part in (span[0], span[1], size, memory, offset)]

    def make_release(self) -> Words:
        self.releases = (
            self.draw.of(RELEASES) if self.draw.chance(10) else min(self.releases + 1, RELEASES[-1])
        )
        return [(self.releases % 2**32, SMALL), (self.releases >> 32, HARD)]

    def make_wait(self) -> Words:
        release = self.draw.of(RELEASES)
        return [(self.draw.below(self.names.streams + 2), SMALL), (release % 2**32, SMALL),
                (release >> 32, HARD)]

    def make_wait_name(self) -> Words:
        (space, number), release = self.names.any_name(), self.draw.of(RELEASES)
        return [(space, SMALL), (number % 2**32, SMALL), (number >> 32, HARD),
                (release % 2**32, SMALL), (release >> 32, HARD)]

    def make_create(self) -> Words:
        return [
            self.image(),
            (self.draw.between(1, 6) if self.draw.chance(95) else self.draw.of(EXTREMES), SMALL),
            (self.draw.between(1, 5), SMALL),
        ]

    def make_delete(self) -> Words | None:
        return [self.image()] if self.draw.chance(20) else None

    def make_clear(self) -> Words:
        return [self.image(), *self.small(4), (self.draw.below(2**32), ANY)]

    def make_copy(self) -> Words:
        return [self.image(), *self.small(2), self.image(), *self.small(4)]

    def upload(self, things: dict[int, int], unit: int) -> Words | None:
        """A rectangle whose bytes are there, with the memory or buffer and the offset."""
        words, size = self.rectangle(self.draw.between(1, 4))
        fitting = [number for number in sorted(things) if things[number] * unit >= size]
        if not fitting:
            return None
        number = self.draw.of(fitting)
        return words + [(number, HARD), (self.draw.below(things[number] * unit - size + 1), HARD)]

    def make_upload(self) -> Words | None:
        return self.upload(self.memories, 4)

    def make_from_buffer(self) -> Words | None:
        return self.upload(self.buffers, 1)

    def make_from_bucket(self) -> Words | None:
        words = self.upload(self.buckets, 1)
        return words[:-1] if words else None

    # --- Lines ---

    def line(self, text: str) -> None:
        self.lines.append(text)

    def store(self, place: int, values: Iterable[int]) -> None:
        """Values at places of the ring, which all of them fit in."""
        self.line(f"put {place} " + " ".join(f"{value:x}" for value in values))

    def fill(self) -> None:
        memory = self.draw.of(sorted(self.memories))
        index = self.draw.below(self.memories[memory])
        values = [f"{self.draw.below(2**32):x}"
                  for _ in range(self.draw.between(1, self.memories[memory] - index))]
        self.line(f"fill {memory} {index} " + " ".join(values))

    def give(self, words: Words) -> None:
        """A command at the next places, with a Noop before it where it does not fit in the ring."""
        if self.put + len(words) > self.ring:
            self.store(self.put, [self.ring - self.put])
            self.open += self.ring - self.put
            self.put = 0
        self.store(self.put, [value for value, _ in words])
        self.flushed += [(self.put + at, soft) for at, (_, soft) in enumerate(words)]
        self.put = (self.put + len(words)) % self.ring
        self.open += len(words)

    def block(self) -> None:
        """Some commands, their flush, and the stores after it."""
        self.flushed = []
        if self.memories and self.draw.chance(50):
            self.fill()
        for _ in range(self.draw.between(0, 4)):
            words = self.command()
            if len(words) > self.ring // 2:
                continue
            if self.open + 2 * len(words) >= self.ring - 1 and (
                self.racing < 3 or self.draw.chance(90)
            ):
                if self.flushed:
                    break
                self.line("finish")
                self.open = 0
            self.give(words)
        put = self.put if self.draw.chance(99) or self.bad == 0 else self.draw.of(EXTREMES)
        fences = "".join(self.names.fence() for _ in range(self.draw.of((0, 0, 0, 1, 1, 2, 4))))
        self.line(f"flush {put}{fences}")
        for _ in range(self.draw.below(5) * self.haste):
            self.store_behind()

    def store_behind(self) -> None:
        """A store into words that were flushed, as far as this client goes."""
        if self.racing >= 1 and self.memories and self.draw.chance(50):
            self.fill()
        elif self.racing >= 2 and self.flushed:
            place, soft = self.draw.of(self.flushed)
            if soft == ANY or (soft == HARD and self.racing == 3 and self.draw.chance(20)):
                is_any = self.draw.chance(50)
                self.store(place, [self.draw.below(2**32) if is_any else self.draw.of(EXTREMES)])
            elif soft == SMALL:
                self.store(place, [self.draw.below(5)])

    def await_something(self) -> None:
        if self.results and self.draw.chance(40):
            memory = self.draw.of(sorted(self.results))
            self.line(f"dump {memory} {self.draw.below(self.results[memory])}")
        elif self.draw.chance(40):
            self.line(f"token {self.token if self.draw.chance(70) else self.draw.of(EXTREMES)}")
            return
        else:
            self.line("finish")
        self.open = 0

    def script(self) -> list[str]:
        for _ in range(self.draw.between(1, 14)):
            self.block()
            if self.draw.chance(self.patience):
                self.await_something()
        if self.draw.chance(25):
            self.line("close")
        return self.lines


class Brief(Client):
    """A client of few stores, for scripts that are read and not raced."""

    def __init__(self, draw: Draw, names: Names, number: int) -> None:
        super().__init__(draw, names, number)
        self.haste = 1


def script(seed: int, client: type[Client] = Client) -> str:
    """The script of a seed, as text."""
    draw = Draw(seed)
    version = 2 if draw.chance(25) else 1
    streams = draw.of((1, 2, 2, 3, 3, 4, 5, 6, 16))
    names = Names(draw, version, streams)
    lines = [f"gpu-script {version}"]
    for number in range(1, streams + 1):
        lines += client(draw, names, number).script()
    return "".join(line + "\n" for line in lines)
