"""The replay of a journal: what each event did, and the state after it.

A journal alone has neither the script's fences, nor PUT before a flush is finished. The script of a
lawful run has both. Without it the fences are those whose waits have a mark in the output, and the
ring is known once get has gone round.
"""

from collections import deque
from collections.abc import Iterable, Sequence
from dataclasses import dataclass, field
from heapq import heappop, heappush

from zorvleid.output import Event, Mark, OutputRefused, words_of
from zorvleid.script import Name

from . import faults, working
from .commands import decode
from .images import Images, Written
from .script import Plan, Target
from .table import ERRORS
from .waits import Names, Waits
from .working import Deed


@dataclass(eq=False)
class Bar:
    """One order number. Its events have their places in the journal, which count from 0."""

    stream: int
    number: int
    begin: int
    row: int
    flush: int  # which one of its stream, from 0
    put: int | None = None
    steps: list[int] = field(default_factory=list)
    # from a step whose wait was kept to the event that could come then
    pauses: list[tuple[int, int]] = field(default_factory=list)
    end: int = -1
    how: str = ""  # `finish`, `close`, `memory` or the number of an error

    @property
    def first(self) -> int | None:
        return self.steps[0] if self.steps else None


@dataclass(eq=False)
class Stand:
    """How one stream stands. The plan is there where the script is known."""

    plan: Plan | None = None
    ring: int | None = None  # where it is known
    ordered: int = 0  # numbers that were drawn, and those that are finished
    finished: int = 0
    entries: int = 0  # of commands that were executed, and how many words were fetched for them
    fetched: int = 0
    at: int = 0  # the place after the latest command
    release: int = 0
    token: int | None = None  # the greatest that was set
    last_token: int = 0
    errors: dict[str, int] = field(default_factory=lambda: {"0501": 0, "0502": 0, "0505": 0})
    open: deque[Bar] = field(default_factory=deque)  # the unprocessed numbers
    gone: Event | None = None  # the event by which it was lost or closed
    buckets: dict[int, bytearray] = field(default_factory=dict)
    buffers: dict[int, bytearray] = field(default_factory=dict)
    # the values of result places that the latest event wrote, where the script is known
    told: dict[int, int] = field(default_factory=dict)
    rows: int = 0  # how many there are, and those that no open bar has
    free: list[int] = field(default_factory=list)

    def __post_init__(self) -> None:
        if self.plan is not None:
            self.ring = self.plan.ring

    @property
    def get(self) -> int:
        return self.at % self.ring if self.ring else self.at

    @property
    def known(self) -> Plan:
        """The plan of a script that is known."""
        assert self.plan is not None
        return self.plan

    @property
    def flush(self) -> int:
        """How many actions come before the flush of the first unprocessed number, if known."""
        return self.known.flushes[self.open[0].flush]

    @property
    def put(self) -> int:
        return self.known.put_of(self.flush)

    @property
    def reach(self) -> int:
        return self.known.reach(self.known.passed(self.finished, self.token or 0))

    @property
    def room(self) -> int | None:
        """How many entries a command may have, where the script is known."""
        if self.plan is None or not self.open:
            return None
        return (self.put if self.put > self.get else self.plan.ring) - self.get

    @property
    def front(self) -> int | None:
        """The first unprocessed number."""
        return self.open[0].number if self.open else None

    def take_row(self) -> int:
        """The first row that no open bar has."""
        if not self.free:
            heappush(self.free, self.rows)
            self.rows += 1
        return heappop(self.free)


def name_of(target: Target) -> Name | None:
    return target if isinstance(target, tuple) else None


class Standing:
    """How all streams stand after some events of a journal."""

    def __init__(
        self, stands: Sequence[Stand], names: Sequence[Name] = (), marks: Iterable[Mark] = ()
    ) -> None:
        self.streams = list(stands)
        self.names = Names(tuple(names))
        self.numbers = {name: number for number, name in enumerate(names, 1)}
        self.bars: list[Bar] = []
        self.images = Images()
        self.waits = Waits(self, self.names)
        self.count = 0  # how many events there were
        self.written: Written | None = None  # by the latest event
        # by number, the waits that have a mark
        self.marked: dict[int, list[tuple[Target, int]]] = {}
        for mark in marks:
            self.marked.setdefault(mark.number, []).append((mark.target, mark.release))

    @property
    def drawn(self) -> int:
        return len(self.bars)

    def of(self, event: Event) -> Stand:
        """The stream of an event that has one."""
        return self.streams[event.stream - 1]

    def stream(self, number: int) -> Stand | None:
        return self.streams[number - 1] if 1 <= number <= len(self.streams) else None

    def take(self, event: Event) -> tuple[Bar | None, Deed]:
        """Takes the next event, or refuses it: the bar that it belongs to, and what it did."""
        stand = self.stream(event.stream)
        if stand is None:
            raise OutputRefused(event.line, "there is no such stream")
        if stand.gone is not None:
            raise OutputRefused(event.line, "the stream is lost or closed")
        self.written = None
        taken: tuple[Bar | None, Deed]
        match event.kind:
            case "order":
                taken = self.take_order(event, stand)
            case "step":
                taken = self.take_step(event, stand)
            case "finish":
                taken = self.take_finish(event, stand)
            case _:
                taken = self.take_end(event, stand)
        self.count += 1
        return taken

    def take_order(self, event: Event, stand: Stand) -> tuple[Bar, Deed]:
        if event.number != self.drawn + 1:
            raise OutputRefused(event.line, f"the next order number is {self.drawn + 1}")
        due = stand.plan.flushes[stand.ordered : stand.ordered + 1] if stand.plan else None
        if due is not None and due != [event.actions]:
            raise OutputRefused(event.line, "the script is of another run: it has no such flush")
        waits = tuple(self.waits.make(event.stream, event.number, self.number_of(target), release,
                                      "fence", name_of(target))
                      for target, release in self.fences(event, stand))
        bar = Bar(event.stream, event.number, self.count, stand.take_row(), stand.ordered)
        if stand.plan is not None:
            bar.put = stand.plan.put_of(event.actions)
        stand.open.append(bar)
        stand.ordered += 1
        self.bars.append(bar)
        return bar, Deed(
            "", "dropped" if any(wait.how == "dropped" for wait in waits) else "", waits=waits
        )

    def fences(self, event: Event, stand: Stand) -> Iterable[tuple[Target, int]]:
        """The fences of a flush: those of the script, or all waits of the number with a mark."""
        if stand.plan is None:
            return self.marked.get(event.number, [])
        return stand.plan.fences_of(event.actions)

    def number_of(self, target: Target) -> int:
        """The number of a stream, from its number or its name."""
        return self.numbers.get(target, 0) if isinstance(target, tuple) else target

    def take_step(self, event: Event, stand: Stand) -> tuple[Bar, Deed]:
        words = event.words
        if not stand.open or not words:
            raise OutputRefused(
                event.line, "the stream has no number to work on, or the step has no words"
            )
        bar = stand.open[0]
        bar.steps.append(self.count)
        return bar, working.execute(self, event, words, stand)

    def take_finish(self, event: Event, stand: Stand) -> tuple[Bar, Deed]:
        if stand.front != event.number:
            raise OutputRefused(event.line, "the number is not the one that the stream works on")
        bar = self.end_bar(stand, "finish")
        bar.put = stand.get if bar.put is None else bar.put
        stand.finished += 1
        ended = self.waits.settle(event.stream)
        return bar, Deed(
            f"done after {working.steps(len(bar.steps))}{working.endings(ended)}", ended=ended
        )

    def take_end(self, event: Event, stand: Stand) -> tuple[Bar | None, Deed]:
        """A loss or a close, which ends all numbers of the stream."""
        if event.kind == "lost" and event.code != "memory" and not stand.open:
            raise OutputRefused(event.line, "the stream has no number to work on")
        words = words_of(event.words)
        command = decode(words) if words else None
        why = (
            faults.loss(event.code, words, stand)
            if event.kind == "lost"
            else "the client closes the stream"
        )
        first = stand.open[0] if stand.open else None
        left = [bar.number for bar in stand.open]
        while stand.open:
            self.end_bar(stand, event.code or "close")
        stand.gone = event
        gone = self.waits.leave(event.stream)
        ended = self.waits.settle(event.stream)
        text = why + working.dropped_numbers(left) + working.gone_waits(gone)
        text += working.endings(ended)
        if event.kind == "close":
            return first, Deed(text, ended=ended)
        return first, Deed(
            text, "lost", ERRORS.get(event.code, "out of memory"), command, ended=ended
        )

    def end_bar(self, stand: Stand, how: str) -> Bar:
        bar = stand.open.popleft()
        bar.end, bar.how = self.count, how
        heappush(stand.free, bar.row)
        return bar
