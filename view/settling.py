"""The words of a stream that its client overwrites while the service may still fetch them."""

from bisect import bisect_left
from collections import deque
from dataclasses import dataclass, field

from zorvleid.output import Event

from .script import Plan


@dataclass
class InFlight:
    """Words of one flush that one line overwrites: the flush counts in its stream, from 1."""

    stream: int
    flush: int
    line: int
    event: int  # the first that fetches one of them, from 0
    places: set[int] = field(default_factory=set)


@dataclass(eq=False)
class Client:
    """How far a client can have come, and what it may have put since the flush that is run."""

    plan: Plan
    passed: int = 0  # how many awaits
    finished: int = 0
    token: int = 0  # the greatest that was set
    is_moved: bool = False  # whether the puts are those of this flush, token and finish
    is_quiet: bool = False  # whether they are, and there are none
    low: int = 0  # the actions between which the puts are kept
    high: int = 0
    puts: dict[int, deque[int]] = field(default_factory=dict)  # by place, the actions
    # by place, all actions that put there, and the values; made once it is asked for
    history: dict[int, tuple[list[int], list[int]]] = field(default_factory=dict)
    found: dict[tuple[int, int], InFlight] = field(default_factory=dict)  # by flush and line

    def finish(self) -> None:
        """A flush is finished."""
        self.finished += 1
        self.is_moved = self.is_quiet = False

    def set_token(self, token: int) -> None:
        self.token = max(self.token, token)
        self.is_moved = self.is_quiet = False

    def move(self, flush: int) -> None:
        """Keeps the puts after a flush that the client can have come to. Neither end falls."""
        self.passed = self.plan.passed(self.finished, self.token, self.passed)
        reach = self.plan.reach(self.passed)
        for _, place in self.plan.puts(self.low, min(flush, self.high)) if self.puts else ():
            self.puts[place].popleft()
            if not self.puts[place]:
                del self.puts[place]
        self.low = flush
        first = max(flush + 1, self.high)  # the flush itself puts nothing
        for at, place in self.plan.puts(first, reach) if first < reach else ():
            self.puts.setdefault(place, deque()).append(at)
        self.high = max(flush, reach)

    def look(self, event: Event, place: int) -> None:
        """Finds the words of an event that are not the same at all moments since their flush."""
        flush = self.finished
        if not self.is_moved:
            self.move(self.plan.flushes[flush])
            self.is_moved, self.is_quiet = True, not self.puts
        for where, _ in event.fetched() if self.puts else ():
            if where in self.puts and (put := self.first_change(where)) >= 0:
                line = self.plan.line_of(put)
                found = self.found.setdefault(
                    (flush, line), InFlight(event.stream, flush + 1, line, place))
                found.places.add(where)

    def first_change(self, place: int) -> int:
        """The first action since the flush that gives a place another value, or -1."""
        if not self.history:
            for at, (kind, where, value) in enumerate(self.plan.actions):
                if kind == "put":
                    moments, values = self.history.setdefault(where, ([], []))
                    moments.append(at)
                    values.append(value)
        moments, values = self.history[place]
        first = bisect_left(moments, self.low)
        before = values[first - 1] if first else 0
        for at in range(first, first + len(self.puts[place])):
            if values[at] != before:
                return moments[at]
        return -1


def is_settled_at_close(plan: Plan) -> bool:
    """Whether a client that closes its stream waits for a finish after its last flush."""
    last = plan.flushes[-1] if plan.flushes else -1
    return not plan.closes() or any(
        at > last and kind == "finish" for at, _, (kind, *_) in plan.awaits)
