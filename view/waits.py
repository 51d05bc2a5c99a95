"""Waits of order numbers: which are kept, which are dropped and why, and which event ends them."""

from dataclasses import dataclass, field
from heapq import heappop, heappush
from typing import TYPE_CHECKING, Protocol

if TYPE_CHECKING:
    from zorvleid.output import Event, Mark
    from zorvleid.script import Name


class Awaited(Protocol):
    """A stream, as far as waits on it go."""

    release: int
    gone: "Event | None"  # the event by which it was lost or closed

    @property
    def front(self) -> int | None:
        """The first unprocessed number."""


@dataclass(frozen=True)
class Names:
    """The names of the streams of a run, by their numbers."""

    names: "tuple[Name, ...]" = ()

    def at(self, number: int) -> "Name | None":
        """The name of a stream, where it says more than its number."""
        name = self.names[number - 1] if 1 <= number <= len(self.names) else None
        return None if name == (0, number) else name

    def called(self, number: int, name: "Name | None" = None) -> str:
        """A stream in words: by its number, and by its name where that says more."""
        if number:
            name = self.at(number)
        of = f" ({name[0]}, {name[1]})" if name else ""
        return f"stream {number}{of}" if number or not name else f"stream{of}"


class Streams(Protocol):
    """The streams after some events of a journal."""

    count: int  # how many events there were

    def stream(self, number: int) -> Awaited | None:
        """The stream of a number, where there is one."""


@dataclass(eq=False, slots=True)
class Wait:
    """The wait of a number for a stream to come to a release.

    Places of the journal count from 0.
    """

    stream: int
    number: int
    target: int
    release: int
    by: str  # `fence`, or the name of the command
    made: int  # the event that made it
    position: int  # among the waits of its number
    names: Names
    # or `release`, `guard`, `closed`, `gone` with its own stream, or `dropped`
    how: str = "pending"
    why: str = ""  # of a wait that was dropped
    ended: int = -1  # the event that ended it, or with which it was gone
    lets: int = -1  # the event of the waiter that could come then
    mark: "Mark | None" = None
    name: "Name | None" = None  # of the stream that is waited for, where it is known

    @property
    def called(self) -> str:
        """The stream that is waited for, in words."""
        return self.names.called(self.target, self.name)

    @property
    def caller(self) -> str:
        """The stream that waits, in words."""
        return self.names.called(self.stream)

    def __str__(self) -> str:
        return f"{self.called} to come to release {self.release}"


@dataclass
class Queue:
    """The pending waits on one stream, the next to end first: by release, then by number."""

    by_release: list[tuple[int, int, int, Wait]] = field(default_factory=list)
    by_number: list[tuple[int, int, Wait]] = field(default_factory=list)


class Waits:
    """All waits of a journal in their order, and those that ended in the order of their marks."""

    def __init__(self, standing: Streams, names: Names) -> None:
        self.standing, self.names = standing, names
        self.all: list[Wait] = []
        self.ended: list[Wait] = []
        self.on: dict[int, Queue] = {}  # by the stream that is waited for
        self.of: dict[int, dict[int, list[Wait]]] = {}  # the pending ones, by stream and number
        self.made: dict[int, int] = {}  # how many waits a number has made

    def make(
        self,
        stream: int,
        number: int,
        target: int,
        release: int,
        by: str,
        name: "Name | None" = None,
    ) -> Wait:
        """A new wait, which is kept or dropped."""
        position = self.made[number] = self.made.get(number, -1) + 1
        wait = Wait(stream, number, target, release, by, self.standing.count, position, self.names,
                    name=name or self.names.at(target))
        wait.why = self.why_dropped(wait)
        if wait.why:
            wait.how, wait.ended = "dropped", wait.made
            self.all.append(wait)
            return wait
        early = self.guessed(wait)
        if early is not None:
            early.by, early.made, early.position = by, wait.made, position
            return early
        self.all.append(wait)
        queue = self.on.setdefault(target, Queue())
        heappush(queue.by_release, (release, number, position, wait))
        heappush(queue.by_number, (number, position, wait))
        self.of.setdefault(stream, {}).setdefault(number, []).append(wait)
        return wait

    def guessed(self, wait: Wait) -> Wait | None:
        """The fence that was taken from the mark of this wait, where the script is not known.

        A number works only while none of its waits is pending. So a pending fence is no fence, but
        the mark of what a command of the number makes now.
        """
        if wait.by == "fence":
            return None
        pending = self.pending(wait.stream, wait.number)
        return next(
            (one for one in pending if (one.target, one.release) == (wait.target, wait.release)),
            None,
        )

    def why_dropped(self, wait: Wait) -> str:
        """Why a wait is dropped at once, or nothing."""
        target = self.standing.stream(wait.target)
        if target is None:
            return (
                f"no stream is called ({wait.name[0]}, "
                f"{wait.name[1]})" if wait.name else f"there is no stream {wait.target}"
            )
        if wait.target == wait.stream:
            return "a stream does not wait for itself"
        if target.gone is not None:
            return f"{wait.called} is {'closed' if target.gone.kind == 'close' else 'lost'}"
        if target.release >= wait.release:
            return f"{wait.called} has come to release {target.release} already"
        if target.front is None or target.front > wait.number:
            return f"{wait.called} has no unprocessed number below {wait.number}"
        return ""

    def settle(self, stream: int) -> tuple[Wait, ...]:
        """Ends the waits on a stream whose end has come, in the order of their marks."""
        queue, target = self.on.get(stream), self.standing.stream(stream)
        if queue is None or target is None:
            return ()
        ended = []
        while queue.by_release and queue.by_release[0][0] <= target.release:
            ended.append((heappop(queue.by_release)[-1], "release"))
        how = "closed" if target.gone is not None and target.gone.kind == "close" else "guard"
        while queue.by_number and (target.front is None or queue.by_number[0][0] < target.front):
            ended.append((heappop(queue.by_number)[-1], how))
        told = [self.end(wait, how) for wait, how in ended if wait.how == "pending"]
        told.sort(key=lambda wait: (wait.number, wait.position))
        self.ended += told
        return tuple(told)

    def end(self, wait: Wait, how: str) -> Wait:
        wait.how, wait.ended = how, self.standing.count
        self.of[wait.stream][wait.number].remove(wait)
        return wait

    def leave(self, stream: int) -> list[Wait]:
        """The pending waits of a stream that is lost or closed, which are gone."""
        gone = [wait for waits in self.of.pop(stream, {}).values() for wait in waits]
        for wait in gone:
            wait.how, wait.ended = "gone", self.standing.count
        return gone

    def pending(self, stream: int, number: int) -> list[Wait]:
        return self.of.get(stream, {}).get(number, [])
