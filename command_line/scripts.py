"""Why a line of a script is refused: the word that is wrong, and what was expected in its place.

The program has said which line it is, and of which kind the fault is. The lines before it are
right, and are read here for what the sentence tells. Where no fault of that kind is found, nothing
is said.
"""

import difflib
import re
from collections.abc import Callable, Iterable, Iterator, Sequence
from dataclasses import dataclass, field

from .marks import LETTERS_AT_MOST, Fault

BLANKS = re.compile(r"[ \t\r]+")
PRIORITIES = ("high", "normal", "low")
STREAMS, FENCES, MEMORIES, NAMESPACES = 16, 16, 16, 256
LEAST_RING, MOST_RING, MOST_WORDS, ACTIONS, FLUSHES = 16, 4096, 65_536, 1_000_000, 100_000


@dataclass(frozen=True)
class Form:
    """The words of a line: those that stand once, and the group that is repeated."""

    first: str
    once: tuple[str, ...] = ()
    group: tuple[str, ...] = ()
    least: int = 0  # how many groups there have to be

    def __str__(self) -> str:
        return " ".join((self.first, *self.once, *self.group, *([".."] if self.group else [])))

    def names(self, count: int) -> list[str]:
        """The names of `count` words after the first, or of more where a group has to end."""
        names = [*self.once, *self.group * self.least]
        while self.group and len(names) < count:
            names += self.group
        return names


FORMS = {
    1: (Form("stream", ("S", "PRIORITY", "RING")),
        Form("flush", ("PUT",), ("T", "R"))),
    2: (Form("stream", ("NS", "ID", "PRIORITY", "RING")),
        Form("flush", ("PUT",), ("NS", "ID", "R"))),
}
BOTH = (
    Form("memory", ("M", "WORDS")),
    Form("results", ("M", "WORDS")),
    Form("put", ("PLACE",), ("VALUE",), 1),
    Form("fill", ("M", "INDEX"), ("VALUE",), 1),
    Form("finish"),
    Form("token", ("T",)),
    Form("close"),
    Form("dump", ("M", "INDEX")),
)
LONG = ("ID", "R")  # the names of long numbers
NUMBER, LONG_NUMBER, VALUE = r"[0-9]{1,10}", r"[0-9]{1,20}", r"[0-9a-fA-F]{1,8}"


def words_of(line: str) -> list[str]:
    """The words of a line."""
    return [word for word in BLANKS.split(line) if word]


@dataclass
class Stream:
    """A stream, by the lines before: its memories by sort and number, and where it acts first."""

    number: int
    name: tuple[int, int]
    ring: int
    line: int
    words: dict[tuple[str, int], int] = field(default_factory=dict)
    lines: dict[tuple[str, int], int] = field(default_factory=dict)
    acts: int = 0
    closes: int = 0

    def numbers(self, sort: str) -> list[int]:
        """The numbers of its memories of a sort."""
        return sorted(number for of, number in self.words if of == sort)

    def sum(self, sort: str) -> int:
        """The words of all its memories of a sort."""
        return sum(words for (of, _), words in self.words.items() if of == sort)


@dataclass
class Before:
    """What the right lines before a line say."""

    version: int = 0
    streams: list[Stream] = field(default_factory=list)
    actions: int = 0
    flushes: int = 0

    def form(self, first: str) -> Form | None:
        """The form of the lines with this first word."""
        return next((form for form in self.forms() if form.first == first), None)

    def forms(self) -> tuple[Form, ...]:
        """The forms of all lines."""
        return FORMS[self.version] + BOTH

    def take(self, number: int, words: Sequence[str]) -> None:
        """Takes a right line."""
        first, rest = words[0], words[1:]
        if first == "gpu-script":
            self.version = int(rest[0])
        elif first == "stream":
            name = (0, int(rest[0])) if self.version == 1 else (int(rest[0]), int(rest[1]))
            self.streams.append(Stream(len(self.streams) + 1, name, int(rest[-1]), number))
        elif first in ("memory", "results"):
            self.streams[-1].words[first, int(rest[0])] = int(rest[1])
            self.streams[-1].lines[first, int(rest[0])] = number
        else:
            stream = self.streams[-1]
            stream.acts = stream.acts or number
            stream.closes = number if first == "close" else 0
            self.actions += count_of(first, rest)
            self.flushes += first == "flush"


def count_of(first: str, rest: Sequence[str]) -> int:
    """How many actions a line is."""
    return len(rest) - {"put": 1, "fill": 2}[first] if first in ("put", "fill") else 1


# --- The kinds ---


def near(word: str, names: Iterable[str]) -> str:
    """The name that may have been meant. No name is like a very long word."""
    found = difflib.get_close_matches(word[:LETTERS_AT_MOST].lower(), list(names), 1)
    return f"; did you mean '{found[0]}'?" if found else ""


def of_word(before: Before, words: Sequence[str]) -> Iterator[Fault]:
    """The first word is unknown, or the number of words or PRIORITY does not fit it."""
    form = before.form(words[0])
    if form is None:
        names = [form.first for form in before.forms()]
        meant = near(words[0], names) or f", but with {', '.join(names)}"
        yield Fault(0, f"no line begins with this word{meant}")
        return
    names = form.names(len(words) - 1)
    other = next((other for other in FORMS[3 - before.version] if other.first == words[0]), None)
    hint = f" in gpu-script {before.version}" if other else ""
    if len(names) > len(words) - 1:
        yield Fault(len(words), f"{names[len(words) - 1]} is missing; the line is `{form}`{hint}")
    elif len(names) < len(words) - 1:
        yield Fault(len(names) + 1, f"this word is one too many; the line is `{form}`{hint}")
    elif "PRIORITY" in names:
        place = names.index("PRIORITY") + 1
        yield Fault(place, f"PRIORITY is high, normal or low{near(words[place], PRIORITIES)}")


def of_number(before: Before, words: Sequence[str]) -> Iterator[Fault]:
    """A word is no number or value where one belongs."""
    if (form := before.form(words[0])) is None:
        return
    for place, (name, word) in enumerate(zip(form.names(len(words) - 1), words[1:]), 1):
        if name == "PRIORITY":
            continue
        if name == "VALUE":
            if not re.fullmatch(VALUE, word):
                yield Fault(place, "a value is 1 to 8 hexadecimal digits, without a prefix")
        elif name in LONG:
            if not re.fullmatch(LONG_NUMBER, word) or int(word) >= 2**64:
                yield Fault(place, f"{name} is a decimal number of up to 20 digits, below 2^64")
        elif not re.fullmatch(NUMBER, word) or int(word) >= 2**32:
            yield Fault(place, f"{name} is a decimal number of up to 10 digits, below 2^32")


def of_order(before: Before, words: Sequence[str]) -> Iterator[Fault]:
    """S is not the next number, or the line stands before a stream, after an action or a close."""
    if words[0] == "stream":
        yield Fault(1, f"streams count from 1, and the next one is {len(before.streams) + 1}")
        return
    if not before.streams:
        yield Fault(0, "a `stream` line has to stand before this one")
        return
    stream = before.streams[-1]
    if words[0] in ("memory", "results"):
        yield Fault(0, f"stream {stream.number} has an action in line {stream.acts} already, "
                       "and this has to stand before it")
    elif stream.closes:
        yield Fault(0, f"stream {stream.number} is closed in line {stream.closes}, "
                       "and no action stands after that")


def of_double(before: Before, words: Sequence[str]) -> Iterator[Fault]:
    """The memory is declared already, or the name is taken."""
    if words[0] == "stream":
        name = (int(words[1]), int(words[2]))
        for stream in before.streams:
            if stream.name == name:
                yield Fault(2, f"stream {stream.number} has this name, in line {stream.line}")
    elif words[0] in ("memory", "results"):
        stream, number = before.streams[-1], int(words[1])
        if line := stream.lines.get((words[0], number)):
            yield Fault(1, f"stream {stream.number} has this memory already, in line {line}")


def of_place(before: Before, words: Sequence[str]) -> Iterator[Fault]:
    """A value would stand past its ring or memory, or a memory or a word is not there."""
    stream = before.streams[-1]
    if words[0] == "put":
        start, what, noun, end = 2, f"the ring of stream {stream.number}", "place", stream.ring
        first = int(words[1])
    else:
        sort = "memory" if words[0] == "fill" else "results"
        what = f"`{sort} {int(words[1])}` of stream {stream.number}"
        start, noun, first = 3, "word", int(words[2])
        if (sort, int(words[1])) not in stream.words:
            numbers = ", ".join(map(str, stream.numbers(sort)))
            has = f", but {numbers}" if numbers else ""
            yield Fault(1, f"stream {stream.number} has no `{sort} {int(words[1])}`{has}")
            return
        end = stream.words[sort, int(words[1])]
    has = f"{what} has {noun}s 0 to {end - 1:,}"
    if words[0] == "dump":
        yield Fault(2, has)
    elif first + len(words) - start > end:
        at = max(0, end - first)
        yield Fault(start + at, f"a value would stand at {noun} {first + at:,}, and {has}")


def of_limit(before: Before, words: Sequence[str]) -> Iterator[Fault]:
    """A number or a sum is past its limit."""
    if words[0] == "stream":
        if not LEAST_RING <= int(words[-1]) <= MOST_RING:
            yield Fault(len(words) - 1, f"RING is {LEAST_RING} to {MOST_RING:,}")
        if len(before.streams) == STREAMS:
            yield Fault(0, f"a script has at most {STREAMS} streams")
        if before.version == 2 and int(words[1]) >= NAMESPACES:
            yield Fault(1, f"NS is 0 to {NAMESPACES - 1}")
    elif words[0] in ("memory", "results"):
        number, count = int(words[1]), int(words[2])
        if number >= MEMORIES:
            yield Fault(1, f"M is 0 to {MEMORIES - 1}")
        if count == 0:
            yield Fault(2, "a memory has at least one word")
        if (whole := before.streams[-1].sum(words[0]) + count) > MOST_WORDS:
            yield Fault(2, f"the words of all `{words[0]}` lines of a stream are at most "
                           f"{MOST_WORDS:,}, and these would be {whole:,}")
    else:
        group = 1 + before.version
        if words[0] == "flush" and len(words) > 2 + FENCES * group:
            yield Fault(2 + FENCES * group, f"a flush has at most {FENCES} fences")
        if before.actions + count_of(words[0], words[1:]) > ACTIONS:
            last = len(words) - count_of(words[0], words[1:]) + ACTIONS - before.actions
            yield Fault(min(last, len(words) - 1), f"a script has at most {ACTIONS:,} actions")
        if words[0] == "flush" and before.flushes == FLUSHES:
            yield Fault(0, f"a script has at most {FLUSHES:,} flushes")


KINDS: dict[str, Callable[[Before, Sequence[str]], Iterator[Fault]]] = {
    "Word": of_word,
    "Number": of_number,
    "Order": of_order,
    "Double": of_double,
    "Place": of_place,
    "Limit": of_limit,
}


def fault_of(lines: Sequence[str], number: int, kind: str) -> Fault | None:
    """The fault of a kind in a line, given with those before it; or None where there is none."""
    before = Before()
    for at, line in enumerate(lines[:number - 1], 1):
        words = words_of(line)
        if words and not words[0].startswith("#"):
            before.take(at, words)
    return next(KINDS[kind](before, words_of(lines[number - 1])), None)
