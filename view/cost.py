"""What a run of a script on one thread will take, without running it: a sketch of each stream.

Each client goes as far as its awaits let it, and then its flushes are run, as in a real run. Only
the order among streams is not followed, so a wait only counts, and an image may be there too early.
The costs were measured on one machine. How fast this one is, two short runs of the program say: one
of plain work, and one that moves texels.
"""

import resource
import subprocess
from collections import Counter, deque
from collections.abc import Sequence
from dataclasses import dataclass, field
from pathlib import Path

from zorvleid.commands import BYTES_OF_FORMAT, NAMED, SIZE_BITS, TABLE

from .faults import BYTES_AT_MOST, NUMBER_AT_MOST, WORDS_AT_MOST
from .images import SIDE_AT_MOST, TEXELS_AT_MOST
from .script import Plan, Script, Target

NOOP, TOKEN = NAMED["Noop"].id, NAMED["SetToken"].id
WAITS = (NAMED["WaitToken"].id, NAMED["WaitSyncToken"].id)
PLAIN = (NOOP, NAMED["InsertFence"].id, *WAITS)

# The nanoseconds and the bytes of memory of each thing that is counted, and of a run of nothing.
COSTS = {
    "start": (1_000_000, 1_400_000), "read": (4.5, 1), "actions": (12, 8), "events": (180, 20),
    "words": (73, 10.4), "fences": (20, 21), "kept": (320, 80), "dumps": (150, 20),
    "texels": (27, 0), "drawn": (0, 4), "cleared": (0.7, 0), "copied": (0.9, 0), "moved": (1.6, 0),
    "zeroed": (0.042, 0),
}
OF_TEXELS = ("texels", "cleared", "copied", "moved")  # what reads or writes much memory
FAR, FAR_TEXELS = 4, 2**20  # how many times slower texels are that no cache holds
TRIAL, TRIAL_SECONDS, TRIALS = ("trial", "2000", "1"), 0.032, 3
# The commands of a script that moves texels and writes none, each with how often it stands.
SIDE, SLICE = 1024, 64
MOVING: tuple[tuple[int, str, list[int]], ...] = (
    (1, "CreateImage", [1, SIDE, SIDE]), (1, "CreateImage", [2, SIDE, SIDE]),
    (1, "SetBucketSize", [1, 4 * SIDE * SLICE]),
    (64, "UploadBucket", [1, 0, 0, SIDE, SLICE, 1, 1]),
    (16, "CopyRect", [1, 0, 0, 2, 0, 0, SIDE, SIDE]),
    (1, "DeleteImage", [1]), (1, "DeleteImage", [2]),
)


@dataclass(frozen=True)
class Slowness:
    """How many times slower a machine is than the one of the costs."""

    plain: float
    texels: float


class Lost(Exception):
    """A command that loses its stream."""


def need(holds: bool) -> None:
    if not holds:
        raise Lost


@dataclass(eq=False)
class Sketch:
    """What was counted of all streams."""

    orders: int = 0
    steps: int = 0
    finishes: int = 0
    ends: int = 0  # losses and closes
    words: int = 0  # that were fetched
    fences: int = 0
    kept: int = 0  # fences on another stream that is there, which may be kept
    moved: int = 0  # bytes into buckets, buffers, result memories and images
    zeroed: int = 0  # bytes of new buckets and buffers
    dumps: int = 0
    # by image, the size that it was made with, and whether it was deleted last
    made: dict[int, tuple[int, int]] = field(default_factory=dict)
    is_gone: dict[int, bool] = field(default_factory=dict)
    # by the command, the image, w and h
    draws: Counter[tuple[str, int, int, int]] = field(default_factory=Counter)

    @property
    def events(self) -> int:
        return self.orders + self.steps + self.finishes + self.ends

    @property
    def texels(self) -> int:
        """How many there are at the end."""
        sizes = (w * h for image, (w, h) in self.made.items() if not self.is_gone[image])
        return min(sum(sizes), TEXELS_AT_MOST)

    @property
    def drawn(self) -> int:
        """How many texels the images have that something is drawn on: others take no memory."""
        images = {image for _, image, _, _ in self.draws}
        sizes = (w * h for image, (w, h) in self.made.items() if image in images)
        return min(sum(sizes), TEXELS_AT_MOST)

    def set_by(self, command: str) -> int:
        """How many texels a command set, each as often as it did; far ones count more."""
        made = self.made
        return sum(count * w * h * (FAR if w * h >= FAR_TEXELS else 1)
                   for (name, image, w, h), count in self.draws.items()
                   if name == command and image in made
                   and w <= made[image][0] and h <= made[image][1])


class Served:
    """A stream, with its words and what its commands keep."""

    def __init__(self, plan: Plan, sketch: Sketch, others: set[Target]) -> None:
        self.plan, self.sketch, self.others = plan, sketch, others
        self.words = [0] * (plan.ring + plan.words)
        self.get = self.token = self.fetched = 0
        self.stores: dict[str, dict[int, int]] = {"bucket": {}, "buffer": {}}
        self.flushes: deque[int] = deque()

    def run(self) -> None:
        """Goes through the actions of the client."""
        words, sketch = self.words, self.sketch
        for at, (kind, argument, value) in enumerate(self.plan.actions):
            if kind == "put":
                words[argument] = value
            elif kind == "flush":
                self.flushes.append(argument)
                sketch.orders += 1
                fences = self.plan.fences_of(at)
                sketch.fences += len(fences)
                sketch.kept += sum(target in self.others for target, _ in fences)
            elif kind == "close":
                sketch.ends += 1
                return
            elif (kind == "finish" or argument > self.token) and not self.serve():
                return
        self.serve()

    def serve(self) -> bool:
        """Runs the flushes that wait; false where the stream is lost."""
        while self.flushes:
            try:
                self.flush(self.flushes.popleft())
            except Lost:
                self.sketch.ends += 1
                return False
            self.sketch.finishes += 1
        return True

    def flush(self, put: int) -> None:
        """Runs the commands of a flush."""
        ring, words, get = self.plan.ring, self.words, self.get
        need(put < ring)
        while get != put:
            header = words[get]
            size, number = header & (1 << SIZE_BITS) - 1, header >> SIZE_BITS
            need(0 < size <= (put if put > get else ring) - get and number in TABLE)
            need(TABLE[number].fits(size))
            fetched = 1 if number == NOOP else size
            need(self.fetched + fetched <= WORDS_AT_MOST)
            if number == TOKEN:
                self.token = max(self.token, words[get + 1])
            elif number not in PLAIN:
                fetched += self.execute(number, words[get + 1:get + size])
                need(self.fetched + fetched <= WORDS_AT_MOST)
            self.sketch.steps += 1
            self.sketch.words += fetched
            self.fetched += fetched
            get = (get + size) % ring
        self.get = get

    def execute(self, number: int, entries: list[int]) -> int:
        """Does what a command does, and answers how many words of a memory it takes."""
        told = dict(zip(TABLE[number].keys, entries))
        data = len(entries) - len(TABLE[number].keys)
        sort = "bucket" if "bucket" in told else "buffer"
        name, store = TABLE[number].name, self.stores[sort]
        if sort in told:
            need(told[sort] <= NUMBER_AT_MOST)
        match name:
            case "CreateImage":
                self.create(told["image"], told["width"], told["height"])
            case "DeleteImage":
                self.sketch.is_gone[told["image"]] = True
            case "ClearRect" | "CopyRect":
                self.draw(name, told.get("target", told.get("image", 0)), told)
            case "SetBucketSize" | "CreateBuffer":
                need(told["size"] <= BYTES_AT_MOST)
                need(name == "SetBucketSize" or told[sort] not in store)
                self.sketch.zeroed += told["size"] * (store.get(told[sort]) != told["size"])
                store[told[sort]] = told["size"]
            case "DeleteBuffer":
                need(store.pop(told[sort], None) is not None)
            case _:
                return self.move(name, told, data, sort)
        return 0

    def create(self, image: int, width: int, height: int) -> None:
        sketch = self.sketch
        if not sketch.is_gone.get(image, True) or not width or not height:
            return
        if max(width, height) <= SIDE_AT_MOST and sketch.texels + width * height <= TEXELS_AT_MOST:
            sketch.made[image], sketch.is_gone[image] = (width, height), False

    def draw(self, name: str, image: int, told: dict[str, int]) -> None:
        self.sketch.draws[name, image, told["w"], told["h"]] += 1

    def move(self, name: str, told: dict[str, int], data: int, sort: str) -> int:
        """The commands that take bytes of a memory, a bucket or a buffer, or give some of them."""
        store, size = self.stores[sort], told.get("size", 0)
        if "format" in told:
            need(told["format"] in BYTES_OF_FORMAT)
            size = told["w"] * told["h"] * BYTES_OF_FORMAT[told["format"]]
            self.draw(name, told["image"], told)
        need(name != "SetBucketDataImmediate" or size <= 4 * data)
        taken = 0
        if name in ("SetBucketData", "BufferData", "UploadRect"):
            taken = self.taken(told["memory"], told["memory_offset"], size)
        elif name == "GetBucketData":
            self.give(told["memory"], told["memory_offset"], size)
        elif name == "GetBucketStart":
            self.give(told["result_memory"], told["result_offset"], 4)
            if told["data_size"]:
                self.give(told["data_memory"], told["data_offset"], told["data_size"])
            size = min(told["data_size"], store.get(told[sort], 0))
        if sort in told:
            need(told[sort] in store)
            end = told.get("offset", 0) + size
            need(name == "GetBucketStart" or end <= store[told[sort]])
        self.sketch.moved += size
        return taken

    def taken(self, memory: int, offset: int, size: int) -> int:
        """How many words of a transfer memory hold a range of bytes."""
        need(memory in self.plan.memories)
        need(offset + size <= 4 * self.plan.memories[memory][1])
        return (offset + size - 1) // 4 - offset // 4 + 1 if size else 0

    def give(self, memory: int, offset: int, size: int) -> None:
        """A range of bytes of a result memory is written."""
        need(offset % 4 == 0 and memory in self.plan.results)
        need(offset + size <= 4 * self.plan.results[memory][1])


def sketch_of(script: Script) -> Sketch:
    """What a run of a lawful script will do."""
    sketch = Sketch()
    for number, plan in enumerate(script.plans, 1):
        others: set[Target] = {other for other in range(1, len(script.plans) + 1)
                               if other != number}
        if script.version == 2:
            others = {name for name in script.names if name != plan.name}
        Served(plan, sketch, others).run()
        sketch.dumps += len(plan.dumps)
    return sketch


@dataclass(frozen=True)
class Cost:
    """What to expect of a run."""

    events: int
    memory: float  # in MiB
    seconds: float

    def __str__(self) -> str:
        seconds = f"{self.seconds:.2g}" if self.seconds < 10 else f"{self.seconds:.0f}"
        return (f"a run on one thread: about {self.events:,} events, {self.memory:,.0f} MiB of "
                f"memory, {seconds} seconds")


def cost_of(script: Script, size: int, slowness: Slowness) -> Cost:
    """The cost of a script of some bytes, on a machine that is so slow."""
    sketch = sketch_of(script)
    counts = {
        "start": 1, "read": size, "actions": sum(plan.size for plan in script.plans),
        "events": sketch.events, "words": sketch.words, "fences": sketch.fences,
        "kept": sketch.kept, "dumps": sketch.dumps, "texels": sketch.texels,
        "drawn": sketch.drawn, "cleared": sketch.set_by("ClearRect"),
        "copied": sketch.set_by("CopyRect"), "moved": sketch.moved, "zeroed": sketch.zeroed,
    }
    time = sum(counts[name] * nanoseconds * (
        slowness.texels if name in OF_TEXELS else slowness.plain
    ) for name, (nanoseconds, _) in COSTS.items())
    memory = sum(counts[name] * taken for name, (_, taken) in COSTS.items())
    return Cost(sketch.events, memory / 2**20, time / 10**9)


def slowness_here(program: Path) -> Slowness:
    """How slow this machine is, by short runs."""
    plain = seconds_of(program, TRIAL, "") / TRIAL_SECONDS
    text = moving_text()
    script = Script(text.split("\n"))
    rest, whole = (cost_of(script, len(text), Slowness(plain, texels)).seconds for texels in (0, 1))
    took = seconds_of(program, ("run",), text)
    return Slowness(plain, max(took - rest, took / 2) / (whole - rest))


def moving_text() -> str:
    """The script of the commands of MOVING."""
    words = [word for count, name, arguments in MOVING
             for word in (NAMED[name].header(NAMED[name].size), *arguments) * count]
    put = " ".join(f"{word:x}" for word in words)
    return f"gpu-script 1\nstream 1 normal {len(words) + 1}\nput 0 {put}\nflush {len(words)}\n"


def seconds_of(program: Path, words: Sequence[str], text: str) -> float:
    """The least seconds of a processor of some runs on a text."""
    took = []
    for _ in range(TRIALS):
        before = resource.getrusage(resource.RUSAGE_CHILDREN)
        subprocess.run([program.resolve(), *words], input=text.encode(), capture_output=True,
                       check=False)
        after = resource.getrusage(resource.RUSAGE_CHILDREN)
        took.append(after.ru_utime + after.ru_stime - before.ru_utime - before.ru_stime)
    return min(took)
