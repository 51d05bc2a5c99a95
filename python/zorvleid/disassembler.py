"""A script as a text of commands, which assembles to a script of the same actions.

A command is named where the assembler would put its words, one after another. Other words stand as
they are: in a `word` line where the next command would go, and else in a `put` line.
"""

from collections import deque
from collections.abc import Iterable, Iterator, Sequence
from itertools import groupby

from .calls import entries_of_bytes
from .commands import FORMATS, IMMEDIATE, NOOP, TABLE, Command, decode, parts_of
from .ring import Ring
from .script import Close, Dump, Fill, Finish, Flush, Item, Memory, Note, Put, Script, Stream, Token

INDENT = "  "


class Listing:
    """The lines of one stream, made as its ring fills."""

    def __init__(self, stream: Stream) -> None:
        self.stream, self.ring = stream, Ring(stream.ring.size)
        self.rest = 0  # how many entries are still to come of words that are no command

    def lines(self) -> Iterator[str]:
        """All lines but the one that begins the stream."""
        for is_stored, items in groupby(
            self.stream.items, lambda item: isinstance(item, (Put, Note))
        ):
            yield from self.stored(items) if is_stored else map(self.line, items)

    def line(self, item: Item) -> str:
        """The line of an item that is no put."""
        match item:
            case Flush(put, fences):
                return self.flush(put, fences)
            case Finish() | Dump():
                self.ring.finish()
            case Token(token):
                self.ring.token(token)
        match item:
            case Memory(kind, number, words):
                return f"{kind} {number} {words}"
            case Fill(memory, index, values):
                return f"fill {memory} {index} " + " ".join(f"{value:x}" for value in values)
            case Finish():
                return "finish"
            case Token(token):
                return f"token {token}"
            case Dump(memory, index):
                return f"dump {memory} {index}"
            case Close():
                return "close"
        raise TypeError(item)

    def flush(self, put: int, fences: Sequence[Sequence[int]]) -> str:
        """A flush, which has a number where it hands over more or less than what was put."""
        is_plain = put == self.ring.place and self.ring.pending < self.ring.size
        self.ring.flush(put)
        self.rest = 0
        after = [":".join(map(str, fence)) for fence in fences]
        return " ".join(
            ["flush", *([] if is_plain else [str(put)]), *(["after", *after] if after else [])]
        )

    def stored(self, items: Iterable[Item]) -> Iterator[str]:
        """The lines of values that were put in a row. A note within a command goes before it."""
        values, notes = [], deque[tuple[int, str]]()
        for item in items:
            match item:
                case Put(place, words):
                    values += [(place + at, word) for at, word in enumerate(words)]
                case Note(line):
                    notes.append((len(values), line))
        at = 0
        while at < len(values):
            line, count = self.part(values, at)
            at += count
            while notes and notes[0][0] < at:
                yield notes.popleft()[1]
            yield line
        yield from (line for _, line in notes)

    def part(self, values: Sequence[tuple[int, int]], at: int) -> tuple[str, int]:
        """The line of the first values from one on, and how many it has."""
        here, end = values[at][0], at + 1
        is_next = here == self.ring.place
        while (
            end < len(values)
            and values[end][0] == here + end - at
            and (is_next or values[end][0] != self.ring.place)
        ):
            end += 1
        words = [word for _, word in values[at:end]]
        if is_next:
            line, count, entries = self.unit(words)
        else:
            line, count, entries = (
                f"put {here} " + " ".join(f"{word:x}" for word in words),
                len(words),
                0,
            )
        is_busy = self.ring.busy(here, max(count, entries)) is not None
        for place, word in enumerate(words[:count], here):
            self.ring.store(place, word)
        self.ring.next += entries
        return f"unchecked {line}" if is_busy else line, count

    def unit(self, words: Sequence[int]) -> tuple[str, int, int]:
        """What begins where the next command would go: its line, its words and its entries."""
        number, size = parts_of(words[0])
        command, left = TABLE.get(number), self.ring.size - self.ring.place
        if (
            not self.rest
            and command
            and command.fits(size)
            and 0 < size <= left
            and size < self.ring.size
        ):
            if command is NOOP:
                data = words[1:size]
                return named(command, {"size": size}, data), 1 + len(data), size
            if size <= len(words):
                told = decode(words[:size])
                return named(command, told.arguments, told.data), size, size
        wanted = self.rest or (size if 0 < size <= left else len(words))
        count = min(wanted, len(words))
        self.rest = wanted - count
        return (
            "word " + " ".join(str(word) if word < 10 else f"0x{word:x}" for word in words[:count]),
            count,
            count,
        )


def named(command: Command, arguments: dict[str, int], data: Sequence[int]) -> str:
    """A command with its keys. Data of exactly the bytes that its size says is written as bytes."""
    size = arguments.get("size", 0)
    stored = b"".join(word.to_bytes(4, "little") for word in data)
    if (
        command is IMMEDIATE
        and 0 < size <= len(stored)
        and entries_of_bytes(stored[:size]) == list(data)
    ):
        keys, last = [key for key in arguments if key != "size"], [f"bytes={stored[:size].hex()}"]
    else:
        keys, last = (
            list(arguments),
            ["data=" + ",".join(f"0x{word:08x}" for word in data)] if data else [],
        )
    return " ".join([command.name, *(f"{key}={shown(key, arguments[key])}" for key in keys), *last])


def shown(key: str, argument: int) -> str:
    """An argument as people write it."""
    if key == "texel":
        return f"0x{argument:08x}"
    return FORMATS.get(argument, str(argument)) if key == "format" else str(argument)


def lines_of(script: Script) -> Iterator[str]:
    """The lines of the text."""
    notes = [item.line for item in script.notes if isinstance(item, Note)]
    yield from notes[: script.notes_before_head]
    yield f"gpu-commands {script.version}"
    yield from notes[script.notes_before_head :]
    for stream in script.streams:
        yield next(stream.lines())
        lines = list(Listing(stream).lines())
        last = len(
            lines
        )  # comments before the next stream stand as far left as this one
        while last and isinstance(stream.items[last - len(lines) - 1], Note):
            last -= 1
        yield from (INDENT + line if line and at < last else line for at, line in enumerate(lines))


def disassemble(script: Script) -> str:
    r"""A script as a text of commands.

    >>> from .reader import read_script
    >>> script = read_script("gpu-script 1\nstream 1 low 16\nput 0 00200002 7\nflush 2\n")
    >>> disassemble(script).splitlines()
    ['gpu-commands 1', 'stream 1 low 16', '  SetToken token=7', '  flush']
    """
    return "".join(line + "\n" for line in lines_of(script))
