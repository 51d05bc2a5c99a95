"""Scripts as values: a `Script` of `Stream`s, each with its client's actions, line by line.

Every call checks what the program's reader checks, so `check` takes the text of a script. A command
goes where the one before it ended, as a careful client would put it: see `Stream`.
"""

from collections.abc import Iterable, Iterator, Mapping, Sequence
from contextlib import contextmanager
from dataclasses import dataclass, field
from itertools import groupby
from typing import TypeAlias, Union

from .calls import Calls
from .commands import LONG, NAMED, NOOP, WIDE, WORD, Command, encode
from .errors import ScriptError
from .ring import Ring

PRIORITIES = ("high", "normal", "low")
STREAMS_AT_MOST, SPACE_AT_MOST = 16, 255
RING_AT_LEAST, RING_AT_MOST = 16, 4096
MEMORY_AT_MOST, SPAN_AT_MOST = 15, 65_536
FENCES_AT_MOST, FLUSHES_AT_MOST, ACTIONS_AT_MOST = 16, 100_000, 1_000_000
BYTES_AT_MOST = 16_777_216
WIDTH = 100  # of a line of values, where they can be parted

Name: TypeAlias = tuple[int, int]
Fence: TypeAlias = tuple[Union["Stream", int, Name], int]  # a stream and a release


@dataclass(frozen=True)
class Memory:
    """A line `memory` or `results`, which its kind says."""

    kind: str
    number: int
    words: int


@dataclass(frozen=True)
class Put:
    """Values at places of the ring. Those of a command stay on one line."""

    place: int
    values: tuple[int, ...]
    is_command: bool = False


@dataclass(frozen=True)
class Fill:
    """Values at words of a transfer memory."""

    memory: int
    index: int
    values: tuple[int, ...]


@dataclass(frozen=True)
class Flush:
    """A flush; a fence is (stream, release), and (namespace, id, release) in version 2."""

    put: int
    fences: tuple[tuple[int, ...], ...] = ()


@dataclass(frozen=True)
class Finish:
    """Waits until every flush before is finished."""


@dataclass(frozen=True)
class Token:
    """Waits for a token, or as `Finish` does."""

    token: int


@dataclass(frozen=True)
class Close:
    """Closes the stream."""


@dataclass(frozen=True)
class Dump:
    """Waits as `Finish` does, and reads a word of a result memory."""

    memory: int
    index: int


@dataclass(frozen=True)
class Note:
    """A line that is passed over: blank, or one that begins with `#`."""

    line: str


Item: TypeAlias = Union[Memory, Put, Fill, Flush, Finish, Token, Close, Dump, Note]


def within(what: str, number: int, greatest: int, least: int = 0) -> int:
    """The number, or an error where it is none or is out of range."""
    if not isinstance(number, int) or isinstance(number, bool):
        raise ScriptError("whole", what, what=what, given=repr(number))
    if not least <= number <= greatest:
        raise ScriptError("number", what, what=what, least=least, greatest=greatest, given=number)
    return number


def numbers_of(what: str, values: Iterable[int]) -> tuple[int, ...]:
    """Numbers of 32 bits, or an error where one is none."""
    if not isinstance(values, Iterable):
        raise ScriptError("numbers", what, what=what, given=repr(values))
    return tuple(within(what, value, WORD) for value in values)


@dataclass
class _Counts:
    """The counts over all streams of a script."""

    actions: int = 0
    flushes: int = 0


class Stream(Calls):
    """The actions of one client. `script.stream(..)` makes one.

    A command goes after the one before it. A Noop fills the end of the ring where the command does
    not fit. A careful client overwrites no entry before `flush` has handed it over and `finish` or
    `token` has freed it: that is an error, or a `finish` goes before where the script `awaits`.
    Within `with stream.unchecked():` it is overwritten, as by a client that races with the service.
    """

    def __init__(
        self, version: int, name: Name, priority: str, size: int, counts: _Counts, awaits: bool
    ) -> None:
        self.version, self.name, self.priority, self.ring = version, name, priority, Ring(size)
        self.items: list[Item] = []
        self.origins: list[int] = []  # the line of each item, where a text was read
        self.memories: dict[str, dict[int, int]] = {"memory": {}, "results": {}}  # words by number
        self._counts, self._awaits, self._is_checked = counts, awaits, True
        self._has_actions = self._is_closed = False

    # --- Declarations ---

    def memory(self, number: int, words: int) -> None:
        """Declares a transfer memory, which the client fills and commands read."""
        self._declare("memory", number, words)

    def results(self, number: int, words: int) -> None:
        """Declares a result memory, which commands write and the client reads."""
        self._declare("results", number, words)

    def _declare(self, kind: str, number: int, words: int) -> None:
        if self._has_actions:
            raise ScriptError("late", kind=kind)
        there = self.memories[kind]
        if within("M", number, WORD) in there:
            raise ScriptError("declared", "M", kind=kind, number=number)
        within("M", number, MEMORY_AT_MOST)
        within("WORDS", words, SPAN_AT_MOST, least=1)
        if sum(there.values()) + words > SPAN_AT_MOST:
            raise ScriptError("span", "WORDS", kind=kind, most=SPAN_AT_MOST)
        there[number] = words
        self.items.append(Memory(kind, number, words))

    # --- Commands and values ---

    def command(
        self,
        command: str | Command,
        arguments: Mapping[str, int],
        data: Sequence[int] = (),
        size: int | None = None,
    ) -> None:
        """Puts a command. A size is given for a Noop alone, and only header and data are put."""
        row = NAMED.get(command) if isinstance(command, str) else command
        if row is None:
            raise ScriptError("command", given=repr(command))
        for key, argument in arguments.items():
            within(key, argument, LONG if key in WIDE else WORD)
        words = encode(row, arguments, numbers_of("data", data))
        if row is NOOP and size is not None:
            words[0] = within("size", size, WORD, least=1)
            if size <= len(data):
                raise ScriptError("data", "data", size=size, count=len(data))
        self._enter(words, words[0] if row is NOOP else len(words))

    def _enter(self, words: Sequence[int], size: int) -> None:
        """Puts a command of this size, after a Noop where it does not fit before the end."""
        ring = self.ring
        if size >= ring.size:
            raise ScriptError("large", size=size, ring=ring.size, most=ring.size - 1)
        left = ring.size - ring.place
        filled = left if size > left else 0
        if filled + size > ring.size and self._is_checked:
            raise ScriptError("round", size=size, left=left, ring=ring.size)
        self._claim(ring.place, filled + size)
        if filled:
            self._store(ring.place, (filled,), is_command=True)
            ring.next += filled
        self._store(ring.place, tuple(words), is_command=True)
        ring.next += size

    def word(self, *values: int) -> None:
        """Puts entries as they are, where the next command would go."""
        numbers_of("value", values)
        self._claim(self.ring.place, len(values))
        for value in values:
            self._store(self.ring.place, (value,))
            self.ring.next += 1

    def put(self, place: int, values: Iterable[int], is_command: bool = False) -> None:
        """Stores values at places of the ring; those of a command stay on one line.

        Where the next command would go they count as a command does, unless they are unchecked.
        """
        stored = numbers_of("value", values)
        within("PLACE", place, WORD)
        if stored and place + len(stored) > self.ring.size:
            raise ScriptError(
                "ring", "PLACE", place=max(place, self.ring.size), last=self.ring.size - 1
            )
        self._claim(place, len(stored))
        is_next = self._is_checked and place == self.ring.place
        self._store(place, stored, is_command)
        self.ring.next += len(stored) if is_next else 0

    def fill(self, memory: int, index: int, values: Iterable[int]) -> None:
        """Stores values in a transfer memory, from a word on."""
        stored = numbers_of("value", values)
        self._find("memory", memory, index, len(stored))
        self._act(len(stored))
        self.items.append(Fill(memory, index, stored))

    @contextmanager
    def unchecked(self) -> Iterator[None]:
        """Allows to overwrite what the service may still read; a `put` leaves the next place."""
        before, self._is_checked = self._is_checked, False
        try:
            yield
        finally:
            self._is_checked = before

    # --- The other actions ---

    def flush(self, put: int | None = None, after: Iterable[Fence] = ()) -> None:
        """Hands over the words that were put, or the ring up to a place, after fences."""
        ring = self.ring
        if put is None and ring.pending >= ring.size:
            raise ScriptError("full", count=ring.pending, ring=ring.size, most=ring.size - 1)
        if not isinstance(after, Iterable):
            raise ScriptError("after", "FENCE", given=given_of(after))
        fences = tuple(self._fence(fence) for fence in after)
        if len(fences) > FENCES_AT_MOST:
            raise ScriptError("fences", "FENCE", most=FENCES_AT_MOST)
        self._act(1)
        if self._counts.flushes == FLUSHES_AT_MOST:
            raise ScriptError("flushes", most=FLUSHES_AT_MOST)
        self._counts.flushes += 1
        item = Flush(ring.place if put is None else within("PUT", put, WORD), fences)
        self.items.append(item)
        ring.flush(item.put)

    def _fence(self, fence: Fence) -> tuple[int, ...]:
        match fence:
            case (Stream() as stream, release):
                name = stream.name
            case (int(number), release):
                name = (0, number)
            case ((space, number), release):
                name = (space, number)
            case _:
                raise ScriptError("after", "FENCE", given=given_of(fence))
        within("RELEASE", release, LONG)
        if self.version == 1:
            return within("STREAM", name[1], WORD), release
        return within("NS", name[0], WORD), within("ID", name[1], LONG), release

    def finish(self) -> None:
        """Waits until all that was flushed is finished."""
        self._act(1)
        self.items.append(Finish())
        self.ring.finish()

    def token(self, token: int) -> None:
        """Waits until the stream has set a token that is as great, or as `finish` does."""
        item = Token(within("T", token, WORD))
        self._act(1)
        self.items.append(item)
        self.ring.token(token)

    def close(self) -> None:
        """Closes the stream, after which nothing follows."""
        self._act(1)
        self.items.append(Close())
        self._is_closed = True

    def dump(self, memory: int, index: int) -> None:
        """Waits as `finish` does, and reads a word of a result memory."""
        self._find("results", memory, index, 1)
        self._act(1)
        self.items.append(Dump(memory, index))
        self.ring.finish()

    def note(self, text: str) -> None:
        """Adds lines that are passed over; those that are not blank get a `#`."""
        self.items += notes_of(text)

    # --- What all of them share ---

    def _act(self, count: int) -> None:
        """Counts actions, where they are allowed."""
        if self._is_closed:
            raise ScriptError("closed")
        if self._counts.actions + count > ACTIONS_AT_MOST:
            raise ScriptError("actions", most=ACTIONS_AT_MOST)
        self._counts.actions += count
        self._has_actions = True

    def _store(self, place: int, values: tuple[int, ...], is_command: bool = False) -> None:
        self._act(len(values))
        self.items.append(Put(place, values, is_command))
        for at, value in enumerate(values, place):
            self.ring.store(at, value)

    def _claim(self, place: int, count: int) -> None:
        """Sees that nothing is overwritten that may still be read."""
        while self._is_checked and (busy := self.ring.busy(place, count)) is not None:
            at, is_handed = busy
            if not is_handed:
                raise ScriptError("pending", "PLACE", place=at)
            if not self._awaits:
                raise ScriptError("in use", "PLACE", place=at)
            self.finish()

    def _find(self, kind: str, number: int, index: int, count: int) -> None:
        """Sees that a memory has these words."""
        within("M", number, WORD)
        within("INDEX", index, WORD)
        if number not in self.memories[kind]:
            raise ScriptError("missing memory", "M", kind=kind, number=number)
        words = self.memories[kind][number]
        if index + count > words:
            raise ScriptError(
                "memory", "INDEX", word=max(index, words), kind=kind, number=number, last=words - 1
            )

    def lines(self) -> Iterator[str]:
        """The lines of the stream in a script."""
        yield "stream {} {} {}".format(
            self.name[1] if self.version == 1 else "{} {}".format(*self.name),
            self.priority,
            self.ring.size,
        )
        for is_put, items in groupby(self.items, lambda item: isinstance(item, Put)):
            if is_put:
                yield from _rows(
                    "put",
                    (unit for item in items if isinstance(item, Put) for unit in _units(item)),
                )
            else:
                for item in items:
                    yield from _lines_of(item)


def given_of(fence: object) -> str:
    """What stands in the place of a fence, for a sentence."""
    return "a stream alone" if isinstance(fence, Stream) else repr(fence)


def notes_of(text: str) -> list[Item]:
    """A text as lines that are passed over."""
    return [
        Note(
            line if not line.strip(" \t\r") or line.lstrip(" \t\r").startswith("#") else f"# {line}"
        )
        for line in text.split("\n")
    ]


def pair_of(name: Name) -> Name:
    """A namespace and an id."""
    match name:
        case (int(space), int(id)):
            return space, id
    raise ScriptError("name", "NS", given=repr(name))


def _units(put: Put) -> Iterator[tuple[int, list[str]]]:
    """What of a put stays on one line: a command that fits on one, else each value."""
    words = [f"{value:x}" for value in put.values]
    if put.is_command:
        words[0] = f"{put.values[0]:08x}"
        if sum(map(len, words)) + len(words) + len("put 4095") <= WIDTH:
            yield put.place, words
            return
    yield from ((place, [word]) for place, word in enumerate(words, put.place))


def _rows(head: str, units: Iterable[tuple[int, list[str]]]) -> Iterator[str]:
    """Values as few lines, each of which begins with where its first value goes."""
    line, end = "", -1
    for place, words in units:
        text = " ".join(words)
        if line and (place != end or len(line) + 1 + len(text) > WIDTH):
            yield line
            line = ""
        line = f"{line} {text}" if line else f"{head} {place} {text}"
        end = place + len(words)
    if line:
        yield line


def _lines_of(item: Item) -> Iterator[str]:
    """The lines of an item that is no put."""
    match item:
        case Memory(kind, number, words):
            yield f"{kind} {number} {words}"
        case Fill(memory, index, values):
            yield from _rows(
                f"fill {memory}", ((at, [f"{value:x}"]) for at, value in enumerate(values, index))
            )
        case Flush(put, fences):
            yield " ".join(
                map(str, ("flush", put, *(number for fence in fences for number in fence)))
            )
        case Finish():
            yield "finish"
        case Token(token):
            yield f"token {token}"
        case Close():
            yield "close"
        case Dump(memory, index):
            yield f"dump {memory} {index}"
        case Note(line):
            yield line


@dataclass
class Script:
    """A script of version 1, whose streams have numbers, or of version 2, whose streams have names.

    Where it `awaits`, a `finish` goes before what would overwrite entries that may still be read.
    """

    version: int = 1
    awaits: bool = False
    streams: list[Stream] = field(default_factory=list)
    notes: list[Item] = field(
        default_factory=list
    )  # the lines that are passed over before the first stream,
    notes_before_head: int = 0  # and how many of them stand before the head line
    _counts: _Counts = field(default_factory=_Counts)

    def __post_init__(self) -> None:
        within("version", self.version, 2, least=1)

    def stream(self, priority: str = "normal", ring: int = 64, name: Name | None = None) -> Stream:
        """Begins the next stream; its name is a namespace and an id, in version 2 alone."""
        number = len(self.streams) + 1
        if priority not in PRIORITIES:
            raise ScriptError("priority", "PRIORITY", given=priority)
        space, id = pair_of((0, number) if name is None else name)
        if self.version == 1 and space != 0:
            raise ScriptError("no name", "S", wanted=number)
        if self.version == 1 and id != number:
            raise ScriptError("next", "S", wanted=number, given=id)
        name = (space, within("ID", id, LONG))
        if any(stream.name == name for stream in self.streams):
            raise ScriptError("taken", "NS", name=name)
        within("RING", ring, RING_AT_MOST, least=RING_AT_LEAST)
        within("NS", name[0], SPACE_AT_MOST)
        if number > STREAMS_AT_MOST:
            raise ScriptError("streams", most=STREAMS_AT_MOST)
        self.streams.append(Stream(self.version, name, priority, ring, self._counts, self.awaits))
        return self.streams[-1]

    def note(self, text: str) -> None:
        """Adds lines that the reader passes over, after the lines so far."""
        if self.streams:
            self.streams[-1].note(text)
        else:
            self.notes += notes_of(text)

    def lines(self) -> Iterator[str]:
        """The lines of the script."""
        notes = [item.line for item in self.notes if isinstance(item, Note)]
        yield from notes[: self.notes_before_head]
        yield f"gpu-script {self.version}"
        yield from notes[self.notes_before_head :]
        for stream in self.streams:
            yield from stream.lines()

    def text(self) -> str:
        """The script as the program reads it."""
        text = "".join(line + "\n" for line in self.lines())
        count = len(text.encode("utf-8", "surrogateescape"))
        if count > BYTES_AT_MOST:
            raise ScriptError("long", most=BYTES_AT_MOST, count=count)
        return text
