"""The reading of an output, line by line.

`read_output` takes the bytes that `run` or `verify` wrote, of either version. It gives an `Output`,
or raises `OutputRefused` with the number of the first line that cannot stand in its place. It does
not compare lines, such as a step and the order number that it belongs to.
"""

import re
from collections.abc import Iterable
from dataclasses import dataclass, field
from itertools import islice, takewhile
from typing import NamedTuple, NoReturn

from .commands import decode

SIDE_AT_MOST = 4096


def up_to(greatest: int) -> str:
    """A pattern of the decimal numbers from 0 to this one, which has no leading zeros."""
    digits = str(greatest)
    shapes = [digits, f"[1-9][0-9]{{0,{len(digits) - 2}}}", "0"]
    for at, digit in enumerate(digits):
        least = 1 if at == 0 else 0
        if int(digit) > least:
            shapes.append(f"{digits[:at]}[{least}-{int(digit) - 1}][0-9]{{{len(digits) - at - 1}}}")
    return f"(?:{'|'.join(shapes)})"


NUMBER = f"({up_to(2**32 - 1)})"
LONG_NUMBER = f"({up_to(2**64 - 1)})"
VALUE = "([0-9a-f]{8})"
WORDS = f"(?: {up_to(2**32 - 1)}:[0-9a-f]{{8}})*+"

EVENT = re.compile(
    f"step {NUMBER}{WORDS}|order {NUMBER} {NUMBER} {NUMBER}|finish {NUMBER} {NUMBER}|"
    f"lost {NUMBER} (memory|[12346]{WORDS})|close {NUMBER}"
)
HEAD = "gpu-journal 2"
NAME = re.compile(f"name {NUMBER} {NUMBER} {LONG_NUMBER}")
VERDICT = re.compile(f"yes events {NUMBER}")
IMAGE = re.compile(f"image {NUMBER} {NUMBER} {NUMBER}")
ROW = re.compile(r"[0-9a-f]{8}(?: [0-9a-f]{8})*")
STREAM = re.compile(
    f"stream {NUMBER} (done|closed|lost memory|lost [12346]) entries {NUMBER} "
    f"release {LONG_NUMBER} "
    f"token {NUMBER} words {NUMBER} errors {NUMBER} {NUMBER} {NUMBER}"
)
MARK = re.compile(f"mark {NUMBER} {NUMBER} {NUMBER} {LONG_NUMBER} (release|guard|closed) {NUMBER}")
DUMP = re.compile(f"dump {NUMBER} {NUMBER} {NUMBER} {VALUE}")
VIEW = re.compile(f"view {NUMBER} {NUMBER} {VALUE}")

NO_LINE_FEED = "\0"


class OutputRefused(ValueError):
    """The first line of a text that cannot stand there, and why."""

    def __init__(self, line: int, why: str) -> None:
        super().__init__(f"refused: line {line}: {why}")
        self.line = line


class Event(NamedTuple):
    """One line of a journal. What its kind does not say is 0 or empty."""

    kind: str
    stream: int
    number: int  # the order number of an order or a finish
    actions: int  # of an order: how many actions stand before the flush
    code: str  # of a loss: its error, or `memory`
    line: int
    text: str

    @property
    def words(self) -> str:
        """The words of a step or a loss as they are printed, with a space before each."""
        at = self.text.find(" ", 5) if self.kind in ("step", "lost") else -1
        if self.kind == "lost":
            at = self.text.find(" ", at + 1)
        return self.text[at:] if at > 0 else ""

    def fetched(self) -> list[tuple[int, int]]:
        """The places and values of its words."""
        return words_of(self.words)

    @property
    def command(self) -> str | None:
        """The name of the command of a step or a loss, where its words are one of the table."""
        row = decode([value for _, value in self.fetched()]).command if self.words else None
        return row.name if row else None

    @property
    def arguments(self) -> dict[str, int]:
        """The arguments of that command by their keys, those that were fetched."""
        return decode([value for _, value in self.fetched()]).arguments


class Image(NamedTuple):
    """An image: red, green, blue and alpha of each texel, row after row."""

    number: int
    width: int
    height: int
    texels: bytes

    def texel(self, x: int, y: int) -> int:
        """One texel as a number, red in the highest byte."""
        if not (0 <= x < self.width and 0 <= y < self.height):
            raise IndexError(f"image {self.number} has {self.width} by {self.height} texels")
        at = 4 * (y * self.width + x)
        return int.from_bytes(self.texels[at : at + 4], "big")


class StreamEnd(NamedTuple):
    """How a stream ended, and what was counted of it."""

    number: int
    end: str  # done, closed, lost memory, or lost with an error
    entries: int
    release: int
    token: int
    words: int
    errors: tuple[int, int, int]  # how often there were 0501, 0502 and 0505
    line: int

    @property
    def counts(self) -> tuple[int, ...]:
        """All that was counted, in the order of its line."""
        return (self.entries, self.release, self.token, self.words, *self.errors)


class Mark(NamedTuple):
    """A wait that ended: who waited for what, and how it ended."""

    stream: int
    number: int
    target: int
    release: int
    how: str
    value: int
    line: int
    text: str


class Dump(NamedTuple):
    """A word that a client read of its results."""

    stream: int
    action: int
    place: int
    value: int


class View(NamedTuple):
    """A look of a viewer: the number of events, and the sum of all texels after them."""

    viewer: int
    events: int
    sum: int


@dataclass
class Output:
    """An output that was read, part by part."""

    version: int = 1
    is_verdict: bool = False
    names: list[tuple[int, int]] = field(default_factory=list)  # of version 2: namespace and id
    events: list[Event] = field(default_factory=list)
    images: list[Image] = field(default_factory=list)
    streams: list[StreamEnd] = field(default_factory=list)
    marks: list[Mark] = field(default_factory=list)
    dumps: list[Dump] = field(default_factory=list)
    views: list[View] = field(default_factory=list)
    event_count: int = 0
    picture: tuple[int, int] = (0, 0)  # the lines of the images, counted from 0: first, past last
    may_end: bool = False  # whether its end may be missing, and whether it is
    is_cut: bool = False


class Lines:
    """A text as lines with a place in them. A last line without a line feed fits no shape."""

    def __init__(self, data: bytes, first: int = 1) -> None:
        self.lines = data.decode("latin-1").split("\n")
        last = self.lines.pop()
        if last:
            self.lines.append(last + NO_LINE_FEED)
        self.at, self.first = 0, first

    @property
    def number(self) -> int:
        """The number of this line."""
        return self.first + self.at

    def here(self) -> str:
        """This line, or nothing after the last one."""
        return self.lines[self.at] if self.at < len(self.lines) else ""

    def starts(self, word: str) -> bool:
        """Whether this line begins so."""
        return self.here().startswith(word)

    def take(self, shape: re.Pattern[str]) -> re.Match[str] | None:
        """What the shape finds in this line, which is then passed; or None."""
        found = shape.fullmatch(self.here())
        self.at += found is not None
        return found

    @property
    def is_over(self) -> bool:
        """Whether this line is not whole or not there, after one that was read."""
        is_part = self.at + 1 == len(self.lines) and self.here().endswith(NO_LINE_FEED)
        return self.at > 0 and (is_part or self.at >= len(self.lines))

    def refuse(self, why: str = "no line of an output that can stand here") -> NoReturn:
        """Refuses this line."""
        raise OutputRefused(
            self.number, why if self.at < len(self.lines) else "the output ends too early"
        )


OTHERS = {
    "gpu-script": "this is a script, and no output: `run` gives the output of it",
    "gpu-commands": "this is a text of commands, and no output: `assemble` makes a script of it",
}


def refuse_other(lines: Lines) -> None:
    """Refuses a script and a text of commands, by the first line that they do not pass over."""
    for at, line in enumerate(lines.lines):
        words = line.split()
        if words and not words[0].startswith("#"):
            if words[0] in OTHERS:
                lines.at = at
                lines.refuse(OTHERS[words[0]])
            return


def words_of(text: str) -> list[tuple[int, int]]:
    """The places and values of words as they are printed."""
    return [(int(word[:-9]), int(word[-8:], 16)) for word in text.split()]


def event_of(found: re.Match[str], line: int) -> Event:
    """The event of a line, by the last of its numbers, the code or the words."""
    match found.lastindex:
        case 1:
            return Event("step", int(found[1]), 0, 0, "", line, found.string)
        case 4:
            return Event(
                "order", int(found[2]), int(found[3]), int(found[4]), "", line, found.string
            )
        case 6:
            return Event("finish", int(found[5]), int(found[6]), 0, "", line, found.string)
        case 8:
            code = found[8].partition(" ")[0]
            return Event("lost", int(found[7]), 0, 0, code, line, found.string)
    return Event("close", int(found[9]), 0, 0, "", line, found.string)


def events_of(lines: Iterable[str], first: int) -> list[Event]:
    """The events of lines, up to one that is no event's. The first line has this number."""
    found = takewhile(bool, map(EVENT.fullmatch, lines))
    return [event_of(one, number) for number, one in enumerate(found, first) if one]


def read_head(lines: Lines, output: Output) -> None:
    """The head and the names of version 2."""
    if lines.here() == HEAD:
        output.version = 2
        lines.at += 1
    while output.version == 2 and lines.starts("name "):
        found = lines.take(NAME)
        if found is None or int(found[1]) != len(output.names) + 1:
            lines.at -= found is not None
            lines.refuse("no name of the next stream")
        output.names.append((int(found[2]), int(found[3])))


def read_events(lines: Lines, output: Output) -> None:
    """The journal."""
    output.events = events_of(islice(lines.lines, lines.at, None), lines.number)
    output.event_count = len(output.events)
    lines.at += output.event_count


def read_row(lines: Lines, width: int) -> bytes:
    """A row of texels."""
    row = lines.here()
    if len(row) != 9 * width - 1 or not ROW.fullmatch(row):
        lines.refuse(f"no row of {width} texels")
    lines.at += 1
    return bytes.fromhex(row)


def read_images(lines: Lines, output: Output) -> None:
    """The images."""
    begin = lines.at
    while lines.starts("image "):
        found = lines.take(IMAGE)
        number, width, height = map(int, found.groups()) if found else (0, 0, 0)
        follows = not output.images or number > output.images[-1].number
        if not (1 <= width <= SIDE_AT_MOST and 1 <= height <= SIDE_AT_MOST and follows):
            lines.at -= found is not None
            lines.refuse("no head of a next image")
        rows = [read_row(lines, width) for _ in range(height)]
        output.images.append(Image(number, width, height, b"".join(rows)))
    output.picture = (begin, lines.at)


def read_streams(lines: Lines, output: Output) -> None:
    """How the streams ended."""
    while lines.starts("stream "):
        line = lines.number
        found = lines.take(STREAM)
        if found is None or int(found[1]) != len(output.streams) + 1:
            lines.at -= found is not None
            lines.refuse("no line of the next stream")
        number, end, *counts = found.groups()
        entries, release, token, words, *errors = map(int, counts)
        output.streams.append(
            StreamEnd(
                int(number),
                end,
                entries,
                release,
                token,
                words,
                (errors[0], errors[1], errors[2]),
                line,
            )
        )
    if output.version == 2 and len(output.names) != len(output.streams):
        lines.refuse("there are not as many streams as names")


def read_endings(lines: Lines, output: Output) -> None:
    """The marks, the dumps and the lines of live views."""
    while (found := lines.take(MARK)) is not None:
        stream, number, target, release = map(int, found.groups()[:4])
        output.marks.append(
            Mark(
                stream, number, target, release, found[5], int(found[6]), lines.number - 1, found[0]
            )
        )
    while (found := lines.take(DUMP)) is not None:
        if not 1 <= int(found[1]) <= len(output.streams):
            lines.at -= 1
            lines.refuse("there is no such stream")
        output.dumps.append(Dump(int(found[1]), int(found[2]), int(found[3]), int(found[4], 16)))
    while (found := lines.take(VIEW)) is not None:
        output.views.append(View(int(found[1]), int(found[2]), int(found[3], 16)))


def read_output(data: bytes | str, is_whole: bool = True, first: int = 1) -> Output:
    r"""The content of an output; the output of `verify` has images alone.

    One that need not be whole may end after any line, or within one: what stands before is read,
    and it is cut. The number of its first line may be another one.

    >>> events = read_output("order 1 1 2\nstep 1 0:00200002 1:00000007\nfinish 1 1\n").events
    >>> events[1].command, events[1].arguments
    ('SetToken', {'token': 7})
    """
    told = data.encode("utf-8", "surrogateescape") if isinstance(data, str) else data
    lines, output = Lines(told, first), Output(may_end=not is_whole)
    refuse_other(lines)
    try:
        read_parts(lines, output)
    except OutputRefused:
        if is_whole or not lines.is_over:
            raise
        output.is_cut = True
    if not is_whole and output.events and not output.streams:
        output.is_cut = True
    return output


def read_parts(lines: Lines, output: Output) -> None:
    """All lines, up to the one that is refused."""
    if (found := lines.take(VERDICT)) is not None:
        output.is_verdict, output.event_count = True, int(found[1])
        read_images(lines, output)
    else:
        read_head(lines, output)
        read_events(lines, output)
        read_images(lines, output)
        read_streams(lines, output)
        read_endings(lines, output)
    if lines.at < len(lines.lines):
        lines.refuse()


def picture_text(data: bytes, output: Output) -> bytes:
    """The lines of the images, as bytes."""
    begin, end = output.picture
    return b"".join(line + b"\n" for line in data.split(b"\n")[begin:end])
