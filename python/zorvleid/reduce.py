"""The smallest script for which a command still ends as it does.

The script is taken as a text of commands, so that each of its commands goes where the one before it
ended. What can be left out is left out: streams, then flushes with what they hand over, then
commands and other lines, each in ever smaller pieces; then words become fewer, and numbers smaller.
"""

import os
import signal
import subprocess
import sys
import tempfile
from collections.abc import Callable, Iterator, Sequence
from dataclasses import dataclass
from pathlib import Path
from typing import TypeVar

from .assembler import assemble
from .disassembler import disassemble
from .errors import Refused, ScriptError, printable
from .script import RING_AT_LEAST, Script

Line = tuple[str, ...]
Place = tuple[int, int]  # of a line: its stream, and where it stands there
Item = TypeVar("Item")
FILE = "{}"  # stands for the name of a file with the script
WAITING = ("finish", "token", "dump")
STOPPING = (signal.SIGINT, signal.SIGTERM, signal.SIGHUP)
FIXED = {"put": 2, "fill": 3, "word": 1}  # words before the values


class CommandFault(Exception):
    """A command that does not start."""


class Unsteady(Exception):
    """A command of which nothing can be learned."""


# --- The text ---


@dataclass(frozen=True)
class Text:
    """A text of commands without its comments. The first line of each stream begins it."""

    version: int
    streams: tuple[tuple[Line, ...], ...]

    def lines(self) -> Iterator[str]:
        yield f"gpu-commands {self.version}"
        yield from (" ".join(line) for stream in self.streams for line in stream)

    def script(self) -> str | None:
        """The script of it, or None where there is none."""
        try:
            return assemble("".join(line + "\n" for line in self.lines()), awaits=True).text()
        except (Refused, ScriptError):
            return None

    def of_lines(self, places: Sequence[Place]) -> "Text":
        """The text with all streams, and of their lines those at these places."""
        kept = set(places)
        return Text(self.version, tuple(
            tuple(line for at, line in enumerate(lines) if at == 0 or (stream, at) in kept)
            for stream, lines in enumerate(self.streams)
        ))

    def of_streams(self, kept: Sequence[int]) -> "Text":
        """The text of these streams alone. Where they have numbers, what names them follows."""
        old = [self.streams[stream] for stream in kept]
        if self.version == 2:
            return Text(2, tuple(old))
        numbers = {str(number): "0" for number in range(1, len(self.streams) + 1)}
        numbers |= {str(stream + 1): str(number) for number, stream in enumerate(kept, 1)}
        return Text(1, tuple(tuple(renamed(line, numbers) for line in lines) for lines in old))

    def with_line(self, place: Place, line: Line) -> "Text":
        """The text with another line at a place."""
        stream, at = place
        lines = (*self.streams[stream][:at], line, *self.streams[stream][at + 1:])
        return Text(self.version, (*self.streams[:stream], lines, *self.streams[stream + 1:]))

    def places(self) -> list[Place]:
        """The places of all lines, but for those that begin a stream."""
        return [(stream, at) for stream, lines in enumerate(self.streams)
                for at in range(1, len(lines))]

    def flushes(self) -> list[list[Place]]:
        """The places again, those together that one flush hands over, with the waits after it.

        First come the first ones of all streams, since streams may have to keep step.
        """
        parts: list[list[list[Place]]] = [[] for _ in self.streams]
        before = ""
        for stream, at in self.places():
            first = self.streams[stream][at][0]
            if at == 1 or before in ("flush", *WAITING) and first not in WAITING:
                parts[stream].append([])
            parts[stream][-1].append((stream, at))
            before = first
        rows = range(max(map(len, parts), default=0))
        return [part[row] for row in rows for part in parts if row < len(part)]


def text_of(script: Script) -> Text:
    """The text of a script."""
    streams: list[list[Line]] = []
    for words in map(str.split, disassemble(script).splitlines()):
        if words and words[0] == "stream":
            streams.append([tuple(words)])
        elif words and streams and not words[0].startswith("#"):
            streams[-1].append(tuple(words))
    return Text(script.version, tuple(map(tuple, streams)))


def renamed(line: Line, numbers: dict[str, str]) -> Line:
    """A line of version 1 with other numbers of streams; a fence on one that is gone is gone."""
    if line[0] == "stream":
        return ("stream", numbers[line[1]], *line[2:])
    if line[0] == "flush" and "after" in line:
        at = line.index("after")
        parts = [(numbers.get(stream, stream), release)
                 for stream, _, release in (word.partition(":") for word in line[at + 1:])]
        fences = [f"{stream}:{release}" for stream, release in parts if stream != "0"]
        return (*line[:at], *(["after", *fences] if fences else []))
    return tuple(
        f"stream={numbers.get(word[7:], word[7:])}" if word.startswith("stream=") else word
        for word in line
    )


# --- Simpler lines ---


def smaller(text: str) -> Iterator[str]:
    """Smaller numbers than one."""
    number = int(text, 16) if text.startswith("0x") else int(text)
    yield from (str(less) for less in dict.fromkeys((0, 1, number // 2)) if less < number)


def shorter(values: Sequence[Item], least: int = 1) -> Iterator[Sequence[Item]]:
    """The front of a list, first half of it."""
    counts = dict.fromkeys((len(values) // 2, len(values) - 1))
    yield from (values[:count] for count in counts if least <= count < len(values))


def simpler(line: Line) -> Iterator[Line]:
    """Lines that say the same with fewer words, or with smaller numbers."""
    first, rest = line[0], line[1:]
    match first:
        case "unchecked":
            yield rest
            yield from (("unchecked", *less) for less in simpler(rest))
        case "stream":
            *front, priority, ring = line
            if priority != "normal":
                yield (*front, "normal", ring)
            rings = (RING_AT_LEAST, int(ring) // 2)
            yield from ((*front, priority, str(less)) for less in dict.fromkeys(rings)
                        if RING_AT_LEAST <= less < int(ring))
        case "memory" | "results":
            yield from ((*line[:2], less) for less in smaller(line[2]) if less != "0")
        case "put" | "fill" | "word":
            fixed = FIXED[first]
            yield from ((*line[:fixed], *less) for less in shorter(line[fixed:]))
        case "flush":
            yield from simpler_flush(rest)
        case _:
            yield from simpler_keys(line)


def simpler_flush(words: Line) -> Iterator[Line]:
    """A flush without its PUT, or without one of its fences."""
    at = words.index("after") if "after" in words else len(words)
    if at > 0:
        yield ("flush", *words[at:])
    for gone in range(at + 1, len(words)):
        fences = (*words[at + 1:gone], *words[gone + 1:])
        yield ("flush", *words[:at], *(("after", *fences) if fences else ()))


def simpler_keys(line: Line) -> Iterator[Line]:
    """A command with a smaller argument, or with less data."""
    for at, word in enumerate(line):
        key, equals, text = word.partition("=")
        less: list[str] = []
        if key == "data":
            less = [",".join(part) for part in shorter(text.split(","))]
        elif key == "bytes":
            less = [text[:2 * len(part)] for part in shorter(range(len(text) // 2))]
        elif equals and text[:1].isdigit():
            less = list(smaller(text))
        elif not equals and at and word.isdigit():
            less = list(smaller(word))
        yield from ((*line[:at], f"{key}{equals}{part}" if equals else part, *line[at + 1:])
                    for part in less)


# --- The search ---


class Search:
    """The smallest text so far for which a command ends as it has to."""

    def __init__(self, text: Text, script: str, ends: Callable[[str], bool]) -> None:
        self.best, self.script, self.ends = text, script, ends
        self.known = {hash(script): True}
        self.tries = 0
        self.say: Callable[[str], None] = lambda stage: None
        self.stage = ""

    def keeps(self, text: Text) -> bool:
        """Whether the command ends so for a text. It is the best one then."""
        script = text.script()
        if script is None:
            return False
        if hash(script) not in self.known:
            self.tries += 1
            self.known[hash(script)] = self.ends(script)
            self.say(self.stage)
        if self.known[hash(script)]:
            self.best, self.script = text, script
        return self.known[hash(script)]

    def run(self) -> None:
        """Makes the text smaller until no stage finds anything."""
        before = None
        while before != self.best:
            before = self.best
            for self.stage, work in (("streams", self.drop_streams), ("flushes", self.drop_flushes),
                                     ("commands", self.drop_lines), ("words", self.simplify)):
                work()

    def drop_streams(self) -> None:
        whole = self.best
        least(range(len(whole.streams)), lambda kept: self.keeps(whole.of_streams(kept)))

    def drop_flushes(self) -> None:
        whole = self.best
        least(whole.flushes(), lambda kept: self.keeps(
            whole.of_lines([place for part in kept for place in part])))

    def drop_lines(self) -> None:
        whole = self.best
        least(whole.places(), lambda kept: self.keeps(whole.of_lines(kept)))

    def simplify(self) -> None:
        for stream, lines in enumerate(self.best.streams):
            for place in ((stream, at) for at in range(len(lines))):
                while self.simplifies(place):
                    pass

    def simplifies(self, place: Place) -> bool:
        """Whether the line at a place became simpler."""
        line = self.best.streams[place[0]][place[1]]
        return any(self.keeps(self.best.with_line(place, less)) for less in simpler(line))


def least(items: Sequence[Item], keeps: Callable[[Sequence[Item]], bool]) -> None:
    """Leaves out items, in pieces of half of them, of a quarter, and so on down to one by one."""
    left, size = list(items), len(items)
    while size:
        at = 0
        while at < len(left):
            rest = left[:at] + left[at + size:]
            if keeps(rest):
                left = rest
            else:
                at += size
        size //= 2


# --- The command ---


@dataclass(frozen=True)
class Command:
    """A command of the user, which gets a script on standard input, or as the file `{}`."""

    words: tuple[str, ...]
    seconds: int

    def end(self, script: str) -> int | None:
        """The status with which it ends, or None where it takes too long."""
        data = script.encode("utf-8", "surrogateescape")
        if not any(FILE in word for word in self.words):
            return self.called(self.words, data)
        with tempfile.TemporaryDirectory() as folder:
            path = Path(folder) / "reduced.script"
            path.write_bytes(data)
            return self.called([word.replace(FILE, str(path)) for word in self.words], data)

    def called(self, words: Sequence[str], data: bytes) -> int | None:
        try:
            process = subprocess.Popen(words, stdin=subprocess.PIPE, stdout=subprocess.DEVNULL,
                                       stderr=subprocess.DEVNULL, start_new_session=True)
        except OSError as error:
            why = f"{printable(words[0])}: {error.strerror}"
            raise CommandFault(f"the command does not start: {why}") from None
        try:
            process.communicate(data, self.seconds)
            return process.returncode
        except subprocess.TimeoutExpired:
            return None
        finally:
            if process.poll() is None:
                os.killpg(process.pid, signal.SIGKILL)
                process.wait()


class Stopped(Exception):
    """A signal that ends the search."""


def told(number: int) -> str:
    return f"signal {-number}" if number < 0 else f"status {number}"


class Progress:
    """How far the search is, on standard error: a line that changes, or one for each stage."""

    def __init__(self, search: Search) -> None:
        self.search, self.whole, self.stage = search, search.script.count("\n"), ""
        self.is_terminal = sys.stderr.isatty()

    def say(self, stage: str) -> None:
        if self.is_terminal:
            print(f"\r{self.line(stage)}\033[K", end="", file=sys.stderr, flush=True)
        elif stage != self.stage:
            print(self.line(stage), file=sys.stderr, flush=True)
        self.stage = stage

    def line(self, stage: str) -> str:
        lines = self.search.script.count("\n")
        return f"{stage}: {lines:,} of {self.whole:,} lines, after {self.search.tries:,} tries"

    def end(self, what: str) -> None:
        front = "\r\033[K" if self.is_terminal else ""
        print(f"{front}{self.line(what)}", file=sys.stderr)


def begun(script: Script, data: bytes, command: Command) -> tuple[Search, int]:
    """A search that has not looked yet, and how the command ends."""
    wanted = command.end(data.decode("utf-8", "surrogateescape"))
    if wanted is None:
        raise Unsteady(f"the command takes longer than --seconds {command.seconds}")
    text = text_of(script)
    same = text.script()
    end = command.end(same) if same is not None else None
    if same is None or end != wanted:
        other = "takes too long" if end is None else f"ends with {told(end)}"
        raise Unsteady(f"the command ends with {told(wanted)}, and {other} for the same actions "
                       "without comments: it has to end alike each time")
    return Search(text, same, lambda tried: command.end(tried) == wanted), wanted


def stop(number: int, _frame: object) -> None:
    raise Stopped(number)


def reduced(script: Script, data: bytes, command: Command) -> tuple[str, int]:
    """The smallest script that is found, and the status: 0, or that of the signal that ended it."""
    signal.signal(signal.SIGPIPE, signal.SIG_IGN)  # the command may end before it has read all
    for number in STOPPING:
        signal.signal(number, stop)
    search = progress = None
    wanted = status = 0
    try:
        search, wanted = begun(script, data, command)
        progress = Progress(search)
        search.say = progress.say
        search.run()
    except Stopped as stopped:
        status = 128 + int(stopped.args[0])
    finally:
        for number in STOPPING:
            signal.signal(number, signal.SIG_IGN)
        signal.signal(signal.SIGPIPE, signal.SIG_DFL)
    if search is None or progress is None:
        return script.text(), status
    progress.end(f"{'stopped' if status else 'done'}, {told(wanted)}")
    return search.script, status
