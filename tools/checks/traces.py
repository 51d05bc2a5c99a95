"""The trace of every case: nested slices, whole flows, right counters, and a slice for each step.

A trace is read line by line beside its journal, so that large ones need no more memory than their
outputs. The memory of a process that makes one is checked too.
"""

import io
import json
import resource
from collections.abc import Iterable, Iterator
from concurrent.futures import Future, ProcessPoolExecutor
from pathlib import Path
from typing import Any

from tools.checks import outputs
from tools.checks.tally import Tally
from view import history
from view import trace as traces
from zorvleid import output

LARGE = 4_000_000  # outputs with more characters are given to a process of their own
PROCESSES = 2
# that a process takes for each character of a large output, beyond those of a small one
BYTES_AT_MOST = 40
BYTES_OF_SMALL = 200_000_000
HEAD, END = '{"displayTimeUnit":"ns","traceEvents":[', "]}"
KINDS = ("order", "step", "finish", "lost", "close")
NUMBERS, WORDS, WAITS = "open order numbers", "fetched words", "pending waits"
FIRST = {(1, 2): "token", (2, 3): "bucket", (257, 4): "stream", (258, 4): "image",
         (260, 7): "image", (261, 9): "source"}
Record = dict[str, Any]


class Fault(Exception):
    """The fault of a trace."""


def check(top: Path, program: Path, tally: Tally) -> None:
    """Reports each output with a wrong trace."""
    large: "list[tuple[Path, Future[tuple[str | None, str]]]]" = []
    with ProcessPoolExecutor(PROCESSES, max_tasks_per_child=1) as pool:
        for name, text in outputs.outputs_of_cases(top):
            if outputs.is_verdict(text):
                continue
            if len(text) > LARGE:
                large.append((name, pool.submit(fault_of_large, text)))
            else:
                tally.tell(f"trace of {name}", fault_of_text(text))
        for name, told in large:
            fault, note = told.result()
            tally.note(f"trace of {name}: {note}")
            tally.tell(f"trace of {name}", fault)


def fault_of_large(text: str) -> tuple[str | None, str]:
    """The fault of the trace of a large output or of its memory, or None; and the memory."""
    fault = fault_of_text(text)
    took = 1024 * resource.getrusage(resource.RUSAGE_SELF).ru_maxrss
    note = f"{took // 10**6:,} MB for an output of {len(text) // 10**6:,} MB"
    if fault is None and took > BYTES_OF_SMALL + BYTES_AT_MOST * len(text):
        fault = f"it takes {note}"
    return fault, note


def fault_of_text(text: str) -> str | None:
    try:
        read = output.read_output(text.encode())
        return fault_of(traces.parts(history.History(read)), text)
    except Exception as error:  # whatever is wrong with one output is reported
        return repr(error)


def fault_of(trace: Iterable[bytes], text: str) -> str | None:
    """The fault of the trace of an output, or None."""
    reading = Reading(text)
    try:
        for record in records_of(trace):
            reading.take(record)
        reading.end()
    except Fault as fault:
        return str(fault)
    return None


def lines_of(trace: Iterable[bytes]) -> Iterator[str]:
    left = ""
    for part in trace:
        *lines, left = (left + part.decode()).split("\n")
        yield from lines
    if left:
        raise Fault("its last line has no end")


def records_of(trace: Iterable[bytes]) -> Iterator[Record]:
    """The events of a trace, each of which is a line, with a comma after each but the last."""
    lines, decode = lines_of(trace), json.JSONDecoder().raw_decode
    if next(lines, "") != HEAD:
        raise Fault("it has another head")
    is_last = False
    for line in lines:
        if line == END and next(lines, None) is None:
            return
        if is_last:
            raise Fault(f"a comma is missing before {line!r}")
        record, end = decode(line) if line else ({}, 0)
        is_last = line[end:] == ""
        if not is_last and line[end:] != ",":
            raise Fault(f"more than an event stands in {line!r}")
        if line:
            yield record
    raise Fault("it has no end")


class Reading:
    """A trace that is read beside its journal, up to one of its events."""

    def __init__(self, text: str) -> None:
        self.text = text
        self.journal = (line.rstrip("\n").split(" ")
                        for line in io.StringIO(text) if line.startswith(outputs.EVENTS))
        # the event, and whether its record has come
        self.place, self.words, self.is_told = 0, [""], True
        self.last = (0, 0)  # the track and the time of the latest step or instant
        self.ends: dict[int, list[int]] = {}  # by track: where the slices end that are open
        self.orders: dict[int, tuple[int, int]] = {}  # by number: its track and its end
        self.owner: dict[int, int] = {}  # by track: its stream
        self.flows: dict[str, dict[int, Record]] = {"s": {}, "f": {}}
        # what the journal counts, and what the trace has, by counter and stream
        self.counts: dict[tuple[str, str], int] = {}
        self.counted: dict[tuple[str, str], int] = {}
        self.here: dict[tuple[str, str], int] = {}  # what the trace has of this event
        self.due: dict[tuple[str, str], int] = {}  # what it must have

    def take(self, record: Record) -> None:
        if record["ph"] == "M":
            return
        if record["ts"] < self.place:
            raise Fault(f"what is at {record['ts']} comes after what is at {self.place}")
        while self.place < record["ts"]:
            self.go_on()
        match record["ph"]:
            case "C":
                (value, ) = record["args"].values()
                self.here[record["name"], str(record["pid"])] = value
            case "s" | "f":
                self.take_flow(record)
            case _:
                self.take_event(record)

    def go_on(self) -> bool:
        """Leaves an event and goes to the next one, where there is one."""
        if not self.is_told:
            raise Fault(f"its events of {self.words[0]} are not those of the journal")
        for key in self.due.keys() | self.here.keys():
            self.leave_counter(key)
        words = next(self.journal, None)
        if words is None:
            return self.fault_past_the_end()
        self.place, self.words, self.is_told = self.place + 1, words, False
        self.here, self.due = {}, self.due_counters()
        return True

    def fault_past_the_end(self) -> bool:
        self.words, self.is_told, self.here, self.due = [""], True, {}, {}
        return False

    def end(self) -> None:
        """Checks the rest once the trace is read."""
        while self.go_on():
            pass
        for (name, stream), value in self.counted.items():
            if name == WAITS and value != 0:
                raise Fault(f"the counter of pending waits of stream {stream} does not end with 0")
        self.end_flows()

    # --- Slices and instants ---

    def take_event(self, record: Record) -> None:
        kind, tid, ts = record["cat"], record["tid"], record["ts"]
        if kind in KINDS:
            if kind != self.words[0] or self.is_told:
                raise Fault(f"its events of {kind} are not those of the journal")
            self.is_told = True
            if (
                str(record["pid"]) != self.words[1]
                or self.owner.setdefault(tid, record["pid"]) != record["pid"]
            ):
                raise Fault(f"the event at {ts} is told of another stream")
        if record["ph"] == "X":
            self.take_slice(record, tid, ts, ts + record["dur"])
        if record["ph"] == "i" or kind == "step":
            self.last = (tid, ts)

    def take_slice(self, record: Record, tid: int, ts: int, end: int) -> None:
        """Slices of one track are nested or apart, and each run lies within its order."""
        ends = self.ends.setdefault(tid, [])
        while ends and ends[-1] <= ts:
            ends.pop()
        if ends and ends[-1] < end:
            raise Fault(f"two slices at {ts} do not nest")
        ends.append(end)
        match record["cat"]:
            case "order":
                self.orders[record["args"]["number"]] = (tid, end)
            case "run":
                if self.orders.pop(record["args"]["number"], None) != (tid, end):
                    raise Fault("a run does not end with its order number")
            case "step":
                self.take_step(record)

    def take_step(self, record: Record) -> None:
        """A step is a slice up to the next event, with the arguments that its words have."""
        ts, words = record["ts"], [int(word.partition(":")[2], 16) for word in self.words[2:]]
        if record["dur"] != 1 or record["args"]["words"] != " ".join(self.words[2:]):
            raise Fault(f"the step at {ts} is no slice of its words")
        header = (words[0] >> 21, words[0] % 2**21)
        if header in FIRST and int(record["args"]["arguments"].get(FIRST[header], -1)) != words[1]:
            raise Fault(f"the step at {ts} has another {FIRST[header]} than its words")

    # --- Flows: one for each mark, with both ends, each on an event of its stream ---

    def take_flow(self, record: Record) -> None:
        if (record["tid"], record["ts"]) != self.last:
            raise Fault(f"the flow {record['id']} leads to no event")
        self.flows[record["ph"]][record["id"]] = record

    def end_flows(self) -> None:
        begins, ends = self.flows["s"], self.flows["f"]
        marks = [line.split(" ") for line in self.text.split("\nmark ")[1:]]
        if not len(begins) == len(ends) == len(marks) or begins.keys() != ends.keys():
            raise Fault(
                f"{len(marks)} waits ended, and {len(begins)} flows begin and {len(ends)} end")
        for number, mark in enumerate(marks, 1):
            begin, end = begins[number], ends[number]
            has = [str(end["pid"]), str(begin["pid"]), begin["name"]]
            if has != [mark[0], mark[2], mark[4]] or begin["ts"] >= end["ts"]:
                raise Fault(f"the flow of `mark {' '.join(mark[:5])}` leads somewhere else")

    # --- Counters: numbers and words are the journal's; waits begin and end with 0 ---

    def due_counters(self) -> dict[tuple[str, str], int]:
        """The changes of an event to the two counters of the journal."""
        kind, stream = self.words[0], self.words[1]
        name = WORDS if kind == "step" else NUMBERS
        had = self.counts.get((name, stream), 0)
        now = {"order": had + 1, "finish": had - 1, "step": had + len(self.words) - 2}.get(kind, 0)
        self.counts[name, stream] = now
        return {(name, stream): now} if now != had else {}

    def leave_counter(self, key: tuple[str, str]) -> None:
        name, stream = key
        if name != WAITS and self.due.get(key) != self.here.get(key):
            raise Fault(f"the counter of {name} of stream {stream} is not that of the journal")
        self.counted[key] = self.here.get(key, 0)
        if self.counted[key] < 0:
            raise Fault(f"the counter of {name} of stream {stream} is below 0")
