"""The events of an output, one a line: in words, or as JSON by docs/log.schema.json."""

import json
import sys
from collections.abc import Iterator, Sequence
from dataclasses import dataclass

from zorvleid.script import Name

from . import commands
from .history import ENDS_HERE, History
from .waits import Wait

MANY = 20_000  # events; a longer log shows its progress on a terminal
EVERY = 5_000


@dataclass(frozen=True)
class Choice:
    """The choice of events.

    One of the marks is enough. An empty field asks for nothing.
    """

    streams: frozenset[int] = frozenset()
    orders: frozenset[int] = frozenset()
    commands: frozenset[str] = frozenset()
    marks: frozenset[str] = frozenset()  # `failed`, `lost` and `waits`

    def takes(self, history: History, place: int) -> bool:
        event, deed, bar = history.output.events[place], history.deeds[place], history.bar_of[place]
        name = deed.command.name if deed.command else ""
        return (not self.streams or event.stream in self.streams) and \
            (not self.orders or (bar is not None and bar.number in self.orders)) and \
            (not self.commands or name in self.commands) and \
            (not self.marks or deed.mark in self.marks
             or ("waits" in self.marks and bool(history.waits_made(place) or deed.ended)))


def what(history: History, place: int) -> str:
    """The kind and the work of an event, in words."""
    event, deed = history.output.events[place], history.deeds[place]
    if event.kind == "step" and deed.command is not None:
        return f"{deed.command.sentence}; {deed.text}"
    if event.kind == "lost":
        is_known = deed.command is not None and deed.command.id in commands.TABLE
        at = f" at {deed.command.sentence}" if deed.command and is_known else ""
        return f"lost by {deed.error}{at}; {history.text(place)}"
    return f"{event.kind}: {history.text(place)}"


def line(history: History, place: int) -> str:
    bar, stream = history.bar_of[place], history.output.events[place].stream
    order = f"order {bar.number}" if bar else "no order"
    wide = len(str(len(history.output.events)))
    called = history.standing.names.called(stream)
    return f"{place + 1:>{wide}}  {called}  {order}  {what(history, place)}"


def written(name: Name | None) -> str | None:
    """A name of a stream, as a fence has it in a text of commands."""
    return f"{name[0]}:{name[1]}" if name else None


def told_wait(wait: Wait) -> dict[str, object]:
    return {"stream": wait.stream, "order": wait.number, "target": wait.target,
            "name": written(wait.name), "release": wait.release, "by": wait.by,
            "made": wait.made + 1, "how": wait.how, "why": wait.why,
            "ended": wait.ended + 1 if wait.ended >= 0 else None}


def record(history: History, place: int) -> dict[str, object]:
    """The facts of an event, as docs/log.schema.json has them."""
    event, deed, bar = history.output.events[place], history.deeds[place], history.bar_of[place]
    told: dict[str, object] = {"event": place + 1, "line": event.line, "stream": event.stream,
                               "order": bar.number if bar else None, "kind": event.kind}
    if history.output.names:
        told["name"] = written(history.output.names[event.stream - 1])
    if deed.command is not None:
        told |= {"command": deed.command.name, "size": deed.command.size,
                 "arguments": deed.command.values}
    if event.kind == "order":
        told["actions"] = event.actions
    told |= {"text": event.text, "what": what(history, place), "result": deed.mark or "done",
             "error": deed.error or None,
             "waits": [told_wait(wait) for wait in history.waits_made(place)],
             "ended": [told_wait(wait) for wait in deed.ended]}
    return told


def unmatched(history: History, choice: Choice, parts: Sequence[tuple[str, Choice]]) -> list[str]:
    """The options that match no event, or that together match none: a sentence each."""
    places = range(len(history.output.events))

    def matches(one: Choice) -> bool:
        return any(one.takes(history, place) for place in places)

    alone = [f"no event matches {option}" for option, part in parts if not matches(part)]
    return alone or ([] if matches(choice) else ["no event matches all options together"])


def lines(history: History, choice: Choice, as_json: bool) -> Iterator[str]:
    dump = json.JSONEncoder(separators=(",", ":")).encode
    for place in range(len(history.output.events)):
        if choice.takes(history, place):
            yield dump(record(history, place)) if as_json else line(history, place)
    if history.output.is_cut and not as_json:
        yield ENDS_HERE


class Progress:
    """How far a long work is, on standard error where that is a terminal."""

    def __init__(self, total: int) -> None:
        self.total, self.count, self.is_told = total, 0, total >= MANY and sys.stderr.isatty()

    def step(self) -> None:
        self.count += 1
        if self.is_told and self.count % EVERY == 0:
            print(f"\r{self.count:,} of {self.total:,} events", end="", file=sys.stderr, flush=True)

    def end(self) -> None:
        if self.is_told:
            print("\r\033[K", end="", file=sys.stderr, flush=True)
