"""The script up to an event of a run, which on one thread runs to the state after that event.

Each command goes to where the service fetched it, with the words that were fetched, so that nothing
is left to a race. In a round each stream has one flush at most, and its client waits for it. The
flushes of a round run by priority and then by stream, which gives all commands their old order.
"""

import argparse
import sys
from collections import deque
from collections.abc import Iterable, Iterator, Sequence
from dataclasses import dataclass, field
from typing import Any

from zorvleid import console, read_script
from zorvleid.commands import NAMED, parts_of
from zorvleid.errors import ScriptError
from zorvleid.output import Event, OutputRefused
from zorvleid.script import (
    BYTES_AT_MOST,
    PRIORITIES,
    Fill,
    Flush,
    Memory,
    Note,
    Put,
    Script,
    Stream,
)

from . import asking, files, looking, sources

WAITS = (NAMED["WaitToken"].id, NAMED["WaitSyncToken"].id)
OF_ANOTHER = "the script is of another run"


@dataclass(eq=False)
class Part:
    """Steps of one order number with no event of another stream between them."""

    stream: int
    number: int
    first: int  # of its events, which count from 1, and the last
    last: int
    put: int  # up to where it is flushed
    steps: list[list[tuple[int, int]]] = field(default_factory=list)  # the words of each
    words: dict[int, int] = field(default_factory=dict)  # of all, by their places
    waits: bool = False  # whether a step made a wait
    round: int = 0

    def has_room(self, words: Iterable[tuple[int, int]]) -> bool:
        """Whether no place of these words has another value here."""
        return all(self.words.get(place, value) == value for place, value in words)

    def take(self, event: int, words: list[tuple[int, int]], put: int) -> None:
        self.last, self.put = event, put
        self.steps.append(words)
        self.words.update(words)
        self.waits |= bool(words) and parts_of(words[0][1])[0] in WAITS


class Course:
    """What a stream of a run has done so far."""

    def __init__(self, stream: Stream) -> None:
        self.stream = stream
        self.flushes = deque(flushes_of(stream))
        self.open: deque[tuple[int, int]] = deque()  # the unprocessed numbers, each with its PUT
        self.at = 0  # the place after the latest command
        self.parts: list[Part] = []
        self.is_closed = self.is_gone = False

    def take_order(self, event: Event) -> None:
        if not self.flushes or self.flushes[0][0] != event.actions:
            raise OutputRefused(event.line, f"{OF_ANOTHER}: it has no such flush")
        self.open.append((event.number, self.flushes.popleft()[1]))

    def after(self, event: Event, words: Sequence[tuple[int, int]]) -> int:
        """The place after a command, whose words have to be at the next places."""
        size = parts_of(words[0][1])[1] if words else 0
        ring = self.stream.ring.size
        if size == 0 or words[0][0] != self.at or self.at + size > ring:
            raise OutputRefused(event.line, f"{OF_ANOTHER}: no such command can stand there")
        return (self.at + size) % ring


def flushes_of(stream: Stream) -> Iterator[tuple[int, int]]:
    """Of each flush: how many actions stand before it, and its PUT."""
    done = 0
    for item in stream.items:
        match item:
            case Put(values=values) | Fill(values=values):
                done += len(values)
            case Memory() | Note():
                pass
            case _:
                if isinstance(item, Flush):
                    yield done, item.put
                done += 1


class Trimmed:
    """A script, cut after events of a run of it."""

    def __init__(self, script: Script, events: Iterable[Event]) -> None:
        self.script = script
        self.courses = [Course(stream) for stream in script.streams]
        self.parts: list[Part] = []
        self.notes: list[str] = []
        for number, event in enumerate(events, 1):
            self.take(number, event)
        self.number_rounds()

    def take(self, number: int, event: Event) -> None:
        if not 1 <= event.stream <= len(self.courses):
            raise OutputRefused(event.line, "there is no such stream")
        course = self.courses[event.stream - 1]
        if course.is_gone or event.kind not in ("order", "close") and not (
            course.open or event.code == "memory"
        ):
            raise OutputRefused(event.line, "the stream has nothing left to do")
        match event.kind:
            case "order":
                course.take_order(event)
            case "step":
                words = event.fetched()
                course.at = course.after(event, words)
                self.add(number, course, event, words, course.at)
            case "finish":
                course.open.popleft()
            case "lost" if event.code != "memory":
                self.add(number, course, event, event.fetched(), course.open[0][1])
                course.is_gone = True
            case "lost":
                course.is_gone = True
                self.notes.append(f"event {number} is a loss as out of memory of stream "
                                  f"{event.stream}, which no script can ask for")
            case _:
                course.is_closed = course.is_gone = True

    def add(self, number: int, course: Course, event: Event, words: list[tuple[int, int]],
            put: int) -> None:
        """Adds the words of an event to the part that they go on with, or to a new one."""
        ends = course.stream.ring.size + sum(course.stream.memories["memory"].values())
        if any(place >= ends for place, _ in words):
            raise OutputRefused(event.line, f"{OF_ANOTHER}: it has no such place")
        order, last = course.open[0][0], self.parts[-1] if self.parts else None
        if last is None or (last.stream, last.number) != (event.stream, order) or (
            not last.has_room(words)
        ):
            last = Part(event.stream, order, number, number, put)
            self.parts.append(last)
            course.parts.append(last)
        last.take(number, words, put)

    def number_rounds(self) -> None:
        """Gives each part the first round in which it comes after all parts before it.

        One that makes a wait is alone in its round, since another stream might hold it up there.
        """
        at, before, is_alone = 0, (len(PRIORITIES), 0), True
        for part in self.parts:
            here = (PRIORITIES.index(self.script.streams[part.stream - 1].priority), part.stream)
            at += is_alone or part.waits or here <= before
            part.round, before, is_alone = at, here, part.waits

    def made(self) -> Script:
        """The script."""
        made = Script(self.script.version)
        for course in self.courses:
            old = course.stream
            new = made.stream(old.priority, old.ring.size, old.name)
            for number, words in old.memories["memory"].items():
                new.memory(number, words)
            for number, words in old.memories["results"].items():
                new.results(number, words)
            with new.unchecked():
                write(new, course)
        return made


def write(stream: Stream, course: Course) -> None:
    """Writes the rounds of a stream. In one without a part of it the stream flushes nothing."""
    parts, known = {part.round: part for part in course.parts}, dict[int, int]()
    last, here = max(parts, default=0), 0
    for at in range(1, last + 1):
        if (part := parts.get(at)) is not None:
            stream.note(f"# order {part.number}, {named(part)}")
            store(stream, part, known)
            here = part.put
        stream.flush(here)
        if at < last or course.is_closed:
            stream.finish()
    if course.is_closed:
        stream.close()


def named(part: Part) -> str:
    is_one = part.first == part.last
    return f"event {part.first}" if is_one else f"events {part.first} to {part.last}"


def store(stream: Stream, part: Part, known: dict[int, int]) -> None:
    """Stores the words of a part that are not there yet; those of a command stand together."""
    ring = stream.ring.size
    fresh = {place: value for place, value in part.words.items() if known.get(place, 0) != value}
    first = ring
    for number, words in stream.memories["memory"].items():
        there = (place - first for place in fresh if first <= place < first + words)
        for index, places in runs(there):
            stream.fill(number, index, [fresh[first + at] for at in places])
        first += words
    for step in part.steps:
        entries = [(place, value) for place, value in step if place < ring]
        if any(place in fresh for place, _ in entries):
            stream.put(entries[0][0], [value for _, value in entries], is_command=True)
    known.update(fresh)


def runs(places: Iterable[int]) -> Iterator[tuple[int, list[int]]]:
    """Places in their order, those in a row together: the first, and all."""
    row: list[int] = []
    for place in sorted(places):
        if row and place != row[-1] + 1:
            yield row[0], row
            row = []
        row.append(place)
    if row:
        yield row[0], row


# --- The tool as it is called ---


def add_tool(tools: Any) -> None:
    """Adds its words."""
    tool = tools.add_parser(
        "trim", allow_abbrev=False, help="write the script up to an event of its run"
    )
    tool.add_argument("script", metavar="SCRIPT")
    tool.add_argument("output", metavar="OUTPUT", nargs="?")
    tool.add_argument("--at", metavar="N", type=looking.number, required=True,
                      help="up to event N of the run, with which the script ends")
    asking.add_program(tool)


def run(asked: argparse.Namespace) -> int:
    """Writes the script up to an event of the output that is named, or of a run on one thread."""
    if (asked.script, asked.output) == (console.STANDARD, console.STANDARD):
        raise files.WrongName("standard input cannot be both the script and the output")
    data = sources.read(asked.script, BYTES_AT_MOST)
    script = read_script(data, asked.script)
    output = (asking.run_of(data, asked.program)[0] if asked.output is None
              else sources.read_journal(asked.output))
    trimmed = Trimmed(script, output.events[:asking.count_of(output, asked.at)])
    try:
        text = trimmed.made().text()
    except ScriptError as error:
        raise OutputRefused(output.events[asked.at - 1].line, f"up to here {error}") from None
    console.write([text.encode()])
    for note in trimmed.notes:
        print(f"note: {note}", file=sys.stderr)
    return 0
