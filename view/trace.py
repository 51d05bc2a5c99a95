"""A history in the Trace Event Format, which Perfetto and chrome://tracing read.

A stream is a process with one track, or with more rows where its order numbers overlap: slices of
one row nest. The place of an event in the journal, from 1 on, is its time in microseconds. The
trace is made event by event, so that only one event of it is in memory at a time.
"""

import json
from collections.abc import Iterator
from itertools import islice

from zorvleid.output import Event, Output

from . import commands
from .history import ENDS_HERE, History
from .standing import Bar
from .waits import Wait

# row R of stream S is track S + 100 R, so that no two tracks have the same number
ROWS_APART = 100
HOW = {"finish": "finished", "close": "ended by the close of its stream",
       "memory": "lost as out of memory", "cut": "not finished where the output ends"}
# names that chrome://tracing knows
COLOURS = {"failed": "bad", "dropped": "terrible", "lost": "black"}
LINES_AT_ONCE = 4096
Record = dict[str, object]


def name_of_stream(output: Output, number: int) -> str:
    name = " ({}, {})".format(*output.names[number - 1]) if output.names else ""
    return f"stream {number}{name}"


def ending_of(bar: Bar) -> str:
    return HOW.get(bar.how) or f"lost by the error {bar.how} ({commands.ERRORS[bar.how]})"


def track(bar: Bar) -> Record:
    return {"pid": bar.stream, "tid": bar.stream + ROWS_APART * bar.row}


def metadata(history: History) -> Iterator[Record]:
    """The names of the processes and the tracks, and their order: that of the streams."""
    for number, lane in enumerate(history.lanes, 1):
        name = name_of_stream(history.output, number)
        yield {"ph": "M", "name": "process_name", "pid": number, "args": {"name": name}}
        yield {"ph": "M", "name": "process_sort_index", "pid": number,
               "args": {"sort_index": number}}
        for row in range(max(1, lane.rows)):
            args = {"name": name if row == 0 else f"{name}, row {row + 1}"}
            yield {"ph": "M", "name": "thread_name", "pid": number,
                   "tid": number + ROWS_APART * row, "args": args}


def order_slice(history: History, bar: Bar) -> Record:
    """A bar, from its order to its end."""
    order = history.output.events[bar.begin]
    args: Record = {"number": bar.number, "actions before the flush": order.actions,
                    "line": order.line, "how": ending_of(bar),
                    "what": history.text(bar.begin)}
    if bar.put is not None:
        args["PUT"] = bar.put
    return {"ph": "X", "cat": "order", "name": f"order {bar.number}", **track(bar),
            "ts": bar.begin + 1,
            "dur": bar.end - bar.begin, "args": args}


def run_slice(bar: Bar, first: int) -> Record:
    """The part of a bar in which its flush runs, from its first step."""
    return {"ph": "X", "cat": "run", "name": f"run of {bar.number}", **track(bar), "ts": first + 1,
            "dur": bar.end - first, "args": {"number": bar.number, "steps": len(bar.steps)}}


def point(history: History, place: int, event: Event) -> Record:
    """A step is a slice up to the next event, and each other event but an order an instant.

    A command is called by its name.
    """
    deed = history.deeds[place]
    args: Record = {"line": event.line, "what": history.text(place)}
    name = event.kind
    if deed.command is not None:
        name = deed.command.name
        args["arguments"] = {field: str(value) if value >= 2**53 else value
                             for field, value in deed.command.values.items()}
        args["words"] = event.words[1:]
        name = f"lost at {name}" if event.kind == "lost" else name
    if event.code:
        args["error"] = commands.ERRORS.get(event.code, event.code)
    shape: Record = {"ph": "X", "dur": 1} if event.kind == "step" else {"ph": "i", "s": "t"}
    if deed.mark:
        args[deed.mark] = deed.error or True
        shape["cname"] = COLOURS[deed.mark]
        name = name if deed.mark == "lost" else f"{name} {deed.mark} {deed.error}".rstrip()
    return {**shape, "cat": event.kind, "name": name, **place_of(history, place), "args": args}


def place_of(history: History, place: int) -> Record:
    """The track and the time of an event."""
    bar, stream = history.bar_of[place], history.output.events[place].stream
    return {"pid": stream, "tid": stream + ROWS_APART * bar.row if bar else stream, "ts": place + 1}


class Flows:
    """Arrows, from the event that ended a wait to the event of the waiter that could come then."""

    def __init__(self, history: History) -> None:
        self.history = history
        # by event: which end of which wait, whose numbers count from 1
        self.ends: dict[int, list[tuple[str, int]]] = {}
        for number, wait in enumerate(history.waits, 1):
            if wait.lets < 0:
                continue
            self.ends.setdefault(wait.ended, []).append(("s", number))
            self.ends.setdefault(wait.lets, []).append(("f", number))

    def records(self, place: int) -> Iterator[Record]:
        for end, number in self.ends.get(place, ()):
            wait = self.history.waits[number - 1]
            both = {"cat": "wait", "name": wait.how, "id": number, **place_of(self.history, place)}
            yield {"ph": "s", **both, "args": args_of(wait)} if end == "s" else {
                "ph": "f",
                "bp": "e",
                **both,
            }


def args_of(wait: Wait) -> Record:
    return {"line": wait.mark.line, "text": wait.mark.text} if wait.mark else {}


class Counters:
    """The counter tracks of each stream: open order numbers, pending waits and fetched words."""

    NUMBERS, WAITS, WORDS = NAMES = ("open order numbers", "pending waits", "fetched words")
    SHORT = {name: name.rpartition(" ")[2] for name in NAMES}

    def __init__(self, history: History) -> None:
        # by event: stream, counter and difference; no words
        self.changes: dict[int, list[tuple[int, str, int]]] = {}
        for bar in history.bars:
            self.note(bar.begin, bar.stream, self.NUMBERS, 1)
            self.note(bar.end, bar.stream, self.NUMBERS, -1)
        for wait in history.standing.waits.all:
            if wait.how != "dropped":
                self.note(wait.made, wait.stream, self.WAITS, 1)
                self.note(wait.ended, wait.stream, self.WAITS, -1)
        self.values = {
            (number, name): 0 for number in range(1, len(history.lanes) + 1) for name in self.NAMES
        }

    def note(self, place: int, stream: int, name: str, difference: int) -> None:
        self.changes.setdefault(place, []).append((stream, name, difference))

    def records(self, place: int, event: Event) -> Iterator[Record]:
        """The counters that an event changes, each once."""
        if event.kind == "step":
            self.values[event.stream, self.WORDS] += event.text.count(":")
            yield self.record(place, event.stream, self.WORDS)
        if place not in self.changes:
            return
        for stream, name, difference in self.changes[place]:
            self.values[stream, name] += difference
        for stream, name in dict.fromkeys(
            (stream, name) for stream, name, _ in self.changes[place]
        ):
            yield self.record(place, stream, name)

    def record(self, place: int, stream: int, name: str) -> Record:
        return {"ph": "C", "cat": "count", "name": name, "pid": stream, "ts": place + 1,
                "args": {self.SHORT[name]: self.values[stream, name]}}


def records(history: History) -> Iterator[Record]:
    """All events of the trace, with those of the journal by their time."""
    yield from metadata(history)
    flows, counters = Flows(history), Counters(history)
    for place, event in enumerate(history.output.events):
        bar = history.bar_of[place]
        if event.kind == "order" and bar is not None:
            yield order_slice(history, bar)
        elif bar is not None and bar.first == place:
            yield run_slice(bar, place)
        if event.kind != "order":
            yield point(history, place, event)
        yield from counters.records(place, event)
        yield from flows.records(place)
    if history.output.is_cut:
        yield {"ph": "i", "s": "g", "cat": "end", "name": ENDS_HERE, "pid": 1, "tid": 1,
               "ts": len(history.output.events) + 1, "args": {}}


def lines(history: History) -> Iterator[str]:
    """The trace as a JSON text, an event a line."""
    dump = json.JSONEncoder(separators=(",", ":"), check_circular=False).encode
    yield '{"displayTimeUnit":"ns","traceEvents":[\n'
    before = ""
    for record in records(history):
        yield before + dump(record)
        before = ",\n"
    yield "\n]}\n"


def parts(history: History) -> Iterator[bytes]:
    """The bytes of the trace, some lines at a time."""
    made = lines(history)
    while part := "".join(islice(made, LINES_AT_ONCE)):
        yield part.encode()
