"""The greatest scripts of one kind: the most of a command, fence, line or event within the limits.

The number of words that a stream may fetch bounds the commands. For some of them the work of one
command does. A ring is as long as it may be and holds the same commands over and over, so that a
flush of few bytes runs many of them.
"""

from collections.abc import Iterable, Iterator, Sequence

HEAD = "gpu-script 1\n"
RING, STREAMS, FLUSHES, ACTIONS = 4096, 16, 100_000, 1_000_000
FETCHED, SPAN, BYTES, TEXELS = 1_048_576, 65_536, 262_144, 4_194_304
SIDE = 4096
GREATEST_RELEASE = 2**64 - 1


def header(number: int, size: int) -> str:
    return f"{(number << 21) + size:x}"


def rounds_of(
    number: int,
    arguments: Sequence[int],
    before: Sequence[Sequence[str]] = (),
    beside: int = 0,
    part: int = 1,
    size: int | None = None,
) -> list[str]:
    """The lines of a stream that runs one command as often as it may fetch its words.

    Each one fetches `beside` words more. Where its size is given, the arguments go on with another
    command.
    """
    words = [header(number, size or 1 + len(arguments)),
             *(f"{argument:x}" for argument in arguments)]
    fetched = RING // 2 + RING // 2 // len(words) * beside
    flushes = max(1, (FETCHED - 2 * RING) // fetched // part)
    return repeated(words, before) + [half_flush(flush) for flush in range(flushes)]


def single(
    first: str, arguments: Sequence[int], before: Sequence[Sequence[str]], count: int, part: int
) -> list[str]:
    """The lines of a stream that runs one command so often, which is much work."""
    words = [first, *(f"{argument:x}" for argument in arguments)]
    halves, rest = divmod(max(1, count // part), RING // 2 // len(words))
    start = RING // 2 if halves % 2 else 0
    last = [f"flush {start + rest * len(words)}"] if rest else []
    return repeated(words, before) + [half_flush(flush) for flush in range(halves)] + last


def half_flush(flush: int) -> str:
    return f"flush {0 if flush % 2 else RING // 2}"


def repeated(words: list[str], before: Sequence[Sequence[str]]) -> list[str]:
    """The lines that put the same words again and again into both halves of a ring, with Noops.

    Some commands go before them. Then a Noop leads to the begin of the ring.
    """
    first = [word for command in before for word in command]
    lines: list[str] = []
    if first:
        lines = [f"put 0 {' '.join(first)} {RING - len(first):x}", f"flush {len(first)}", "flush 0",
                 "finish"]
    each = RING // 2 // len(words)
    left = RING // 2 - each * len(words)
    half = words * each + ([f"{left:x}", *["0"] * (left - 1)] if left else [])
    return [*lines, "put 0 " + " ".join(half * 2)]


def one(lines: Iterable[str], declared: Iterable[str] = ()) -> str:
    return HEAD + "".join(f"{line}\n" for line in (f"stream 1 normal {RING}", *declared, *lines))


def all_streams(lines: Iterable[str], declared: Iterable[str] = ()) -> str:
    return HEAD + "".join(f"{line}\n" for stream in range(1, STREAMS + 1)
                          for line in (f"stream {stream} normal {RING}", *declared, *lines))


IMAGE = [header(258, 4), "1", f"{SIDE:x}", f"{TEXELS // SIDE:x}"]
SMALL_IMAGE = [header(258, 4), "1", "1", "1"]
BUCKET = [header(2, 3), "0", f"{BYTES:x}"]
BUFFER = [header(264, 3), "0", f"{BYTES:x}"]
WORK = 2000  # commands that each touch as much as there may be


def commands(part: int) -> Iterator[tuple[str, str]]:
    """For each command the most cheap ones, and some that are as much work as one may be."""
    memory, results = [f"memory 0 {SPAN}"], [f"results 0 {SPAN}"]
    yield "Noop", one(rounds_of(0, [], part=part))
    yield "SetToken", one(rounds_of(1, [1], part=part))
    yield "SetBucketSize", one(rounds_of(2, [0, BYTES], part=part))
    yield "SetBucketData of 0 bytes", one(
        rounds_of(3, [0, 0, 0, 0, 0], [BUCKET], part=part), memory
    )
    yield "SetBucketData of all words", one(
        single(header(3, 6), [0, 0, BYTES, 0, 0], [BUCKET], 15, part), memory
    )
    yield "SetBucketDataImmediate", one(rounds_of(4, [0, 0, 4, 1], [BUCKET], part=part))
    yield "GetBucketStart of all bytes", one(
        single(header(5, 7), [0, 0, 0, BYTES, 0, 0], [BUCKET], WORK, part), results
    )
    yield "GetBucketData of all bytes", one(
        single(header(6, 6), [0, 0, BYTES, 0, 0], [BUCKET], WORK, part), results
    )
    yield "InsertFence", one(rounds_of(256, [1, 0], part=part))
    yield "WaitToken that is dropped", one(rounds_of(257, [2, 2**32 - 1, 2**32 - 1], part=part))
    yield "CreateImage that is there", one(rounds_of(258, [1, 1, 1], part=part))
    yield "DeleteImage that is missing", one(rounds_of(259, [1], part=part))
    yield "ClearRect of one texel", one(
        rounds_of(260, [1, 0, 0, 1, 1, 7], [SMALL_IMAGE], part=part)
    )
    yield "ClearRect of all texels", one(
        single(header(260, 7), [1, 0, 0, SIDE, TEXELS // SIDE, 7], [IMAGE], WORK // 10, part)
    )
    yield "CopyRect of one texel", one(
        rounds_of(261, [1, 0, 0, 1, 0, 0, 1, 1], [SMALL_IMAGE], part=part)
    )
    yield "CopyRect of all texels", one(
        single(header(261, 9), [1, 0, 0, 1, 0, 0, SIDE, TEXELS // SIDE], [IMAGE], WORK // 10, part)
    )
    yield "UploadRect of one texel", one(
        rounds_of(262, [1, 0, 0, 1, 1, 1, 0, 0], [SMALL_IMAGE], 1, part), memory
    )
    yield "UploadRect of all words", one(
        single(header(262, 9), [1, 0, 0, SIDE, 16, 1, 0, 0], [IMAGE], 15, part), memory
    )
    yield "UploadBucket of all bytes", one(
        single(header(263, 8), [1, 0, 0, SIDE, 16, 1, 0], [IMAGE, BUCKET], WORK, part)
    )
    yield "CreateBuffer and DeleteBuffer", one(
        rounds_of(264, [0, BYTES, (265 << 21) + 2, 0], part=part, size=3)
    )
    yield "BufferData of all words", one(
        single(header(266, 6), [0, 0, BYTES, 0, 0], [BUFFER], 15, part), memory
    )
    yield "UploadBuffer of all bytes", one(
        single(header(267, 9), [1, 0, 0, SIDE, 16, 1, 0, 0], [IMAGE, BUFFER], WORK, part)
    )
    yield "WaitSyncToken of no stream", one(rounds_of(268, [255, 0, 0, 1, 0], part=part))


def fences(part: int) -> Iterator[tuple[str, str]]:
    """Sixteen fences with each flush: dropped ones, ones that a release ends, and guards."""
    flushes = FLUSHES // part
    yield "that is dropped", HEAD + "stream 1 normal 16\n" + (
        "flush 0" + " 16 1" * 16 + "\n"
    ) * flushes
    for name, release in (("a release", 1), ("a guard", GREATEST_RELEASE)):
        few = min(flushes, 16_000 // part)
        yield f"that ends by {name}", (HEAD + "stream 1 low 16\nput 0 20000003 1 0\nflush 3\n"
                                             + "stream 2 high 16\n"
                                       + (f"flush 0{f' 1 {release}' * 16}\n") * few)


def line_kinds(part: int) -> Iterator[tuple[str, str, list[str]]]:
    """As many lines of each kind as the limits have room for."""
    size = 16_000_000 // part
    yield "comments", HEAD + "#\n" * (size // 2), ["check"]
    yield "blanks", HEAD + " " * size + "\n", ["check"]
    yield "puts", HEAD + f"stream 1 normal {RING}\n" + "put 0 1\n" * (ACTIONS // part), []
    yield "fills", HEAD + f"stream 1 normal {RING}\nmemory 0 1\n" + "fill 0 0 1\n" * (
        ACTIONS // part
    ), []
    yield "finishes", HEAD + "stream 1 normal 16\n" + "finish\n" * (ACTIONS // part), []
    yield "tokens", HEAD + "stream 1 normal 16\n" + "token 4294967295\n" * (800_000 // part), []
    yield "dumps", HEAD + "stream 1 normal 16\nresults 0 1\n" + "dump 0 0\n" * (ACTIONS // part), []
    yield "flushes of one stream", HEAD + "stream 1 normal 16\n" + "flush 0\n" * (
        FLUSHES // part
    ), []
    yield "flushes that are awaited", HEAD + "stream 1 normal 16\n" + "flush 0\nfinish\n" * (
        FLUSHES // part
    ), []
    yield "flushes of sixteen streams", HEAD + "".join(
        f"stream {stream} normal 16\n" + "flush 0\n" * (FLUSHES // 16 // part)
        for stream in range(1, 17)
    ), []


def events(part: int) -> Iterator[tuple[str, str, list[str]]]:
    """As many of each event as there may be; orders and finishes are those of the flushes above."""
    yield "steps of sixteen streams", all_streams(rounds_of(0, [], part=8 * part)), []
    yield "closes", HEAD + "".join(
        f"stream {stream} normal 16\nflush 0\nclose\n" for stream in range(1, 17)
    ), []
    yield "losses", HEAD + "".join(
        f"stream {stream} normal 16\nflush 16\n" for stream in range(1, 17)
    ), []


def scripts(part: int) -> Iterator[tuple[str, str, list[str]]]:
    """Each script with its name and its words, none where it is run; 1 of `part` parts of it."""
    for kind, run in (("command", commands(part)), ("fence", fences(part))):
        for name, text in run:
            yield f"{kind} {name}", text, []
    for kind, made in (("line", line_kinds(part)), ("event", events(part))):
        for name, text, words in made:
            yield f"{kind} {name}", text, words
