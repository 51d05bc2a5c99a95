"""What orders the steps of a run, by vector clocks, and which of them conflict.

A stream does its events one after the other. A wait that ended by a release, or whose release was
reached already, orders the step of that release before what its order number does after the wait.
All other waits order nothing. A clock has an event for each stream: the latest one that comes
before, in every run with the same waits. Events count from 0.
"""

from bisect import bisect_left
from collections import deque
from dataclasses import dataclass, field
from typing import NamedTuple

from zorvleid.commands import NAMED, TABLE, parts_of
from zorvleid.output import Event, Output, OutputRefused

from .script import Plan, Script
from .settling import Client
from .standing import name_of
from .touching import CREATE, PLACES, Traces, touches_of
from .waits import Names, Wait, Waits

RELEASE, SET_TOKEN, NAMED_WAIT = (
    NAMED[name].id for name in ("InsertFence", "SetToken", "WaitSyncToken"))
WAITS = (NAMED["WaitToken"].id, NAMED_WAIT)
# by id of the commands that matter here, how many entries they have, and the most of them
DEEDS = {number: TABLE[number].size for number in (*PLACES, *WAITS, RELEASE, SET_TOKEN)}
MOST = max(DEEDS.values())
NO_STEP = "the step has no whole command"


class Conflict(NamedTuple):
    """Two events of different streams that touch the same, the earlier one first."""

    image: int
    first: int
    second: int


@dataclass(eq=False)
class Lane:
    """A stream: its numbers, its releases and its clock."""

    plan: Plan
    client: Client
    clock: list[int]
    open: deque[int] = field(default_factory=deque)
    ordered: int = 0
    release: int = 0
    gone: Event | None = None
    # the release counts that it came to, with the step and the clock of each
    counts: list[int] = field(default_factory=list)
    steps: list[int] = field(default_factory=list)
    clocks: list[list[int]] = field(default_factory=list)
    # of numbers with waits that orders nothing yet
    due: dict[int, list[Wait]] = field(default_factory=dict)

    @property
    def front(self) -> int | None:
        """The first unprocessed number."""
        return self.open[0] if self.open else None

    def step_of(self, release: int) -> int:
        """Which of its releases came to a count, or how many there are."""
        return bisect_left(self.counts, release)

    def has_come(self, release: int, event: int) -> bool:
        """Whether it had come to a release before an event."""
        at = self.step_of(release)
        return release == 0 or (at < len(self.steps) and self.steps[at] < event)

    def is_done(self) -> bool:
        return self.gone is not None or (
            not self.plan.closes() and not self.open and self.ordered == len(self.plan.flushes))


class Clocks:
    """The events of a run, one after the other, with all conflicts of its steps."""

    def __init__(self, output: Output, script: Script) -> None:
        self.count = 0  # how many events there were
        self.lanes = [Lane(plan, Client(plan), [-1] * len(script.plans)) for plan in script.plans]
        self.stream = dict(enumerate(self.lanes, 1)).get  # of a number, where there is one
        self.numbers = {name: number for number, name in enumerate(script.names, 1)}
        self.waits = Waits(self, Names(tuple(script.names)))
        self.number_of: list[int] = []  # the order number that each event is of, or 0
        self.drawn = self.texels = 0
        self.images: dict[int, dict[int, Traces]] = {}  # by image and stream
        self.races: list[Conflict] = []  # those that nothing orders
        self.ordered: dict[tuple[int, int], list[Conflict]] = {}  # the others, by both streams
        take = {"order": self.take_order, "step": self.take_step, "finish": self.take_finish}
        for self.count, event in enumerate(output.events):
            lane = self.stream(event.stream)
            if lane is None or lane.gone is not None:
                raise OutputRefused(event.line, "there is no such stream, or it is lost or closed")
            self.number_of.append(lane.open[0] if lane.open else 0)
            take.get(event.kind, self.take_end)(event, lane)

    def take_order(self, event: Event, lane: Lane) -> None:
        self.drawn += 1
        due = lane.plan.flushes[lane.ordered : lane.ordered + 1]
        if event.number != self.drawn or due != [event.actions]:
            raise OutputRefused(event.line, "the script is of another run: it has no such flush")
        lane.ordered += 1
        for target, release in lane.plan.fences_of(event.actions):
            number = self.numbers.get(target, 0) if isinstance(target, tuple) else target
            self.make(event, lane, event.number, number, release, "fence", name_of(target))
        lane.open.append(event.number)

    def take_step(self, event: Event, lane: Lane) -> None:
        pieces = event.text.split(":", MOST)  # after the first one each begins with a value
        if not lane.open or len(pieces) < 2:
            raise OutputRefused(event.line, NO_STEP)
        if lane.due:
            self.meet_waits(lane)
        if not lane.client.is_quiet:
            lane.client.look(event, self.count)
        lane.clock[event.stream - 1] = self.count
        number, size = parts_of(int(pieces[1][:8], 16))
        if number not in DEEDS:
            return
        wanted = DEEDS[number]
        if size < wanted or len(pieces) <= wanted:
            raise OutputRefused(event.line, NO_STEP)
        arguments = [int(piece[:8], 16) for piece in pieces[2:wanted + 1]]
        if number in PLACES:
            self.touch(event.stream, lane, number, arguments)
        else:
            self.execute(event, lane, number, arguments)

    def execute(self, event: Event, lane: Lane, number: int, values: list[int]) -> None:
        """Does what a step does to the tokens, the releases and the waits, by its arguments."""
        if number == SET_TOKEN:
            lane.client.set_token(values[0])
        elif number == RELEASE:
            self.raise_count(event, lane, values[0] + (values[1] << 32))
        else:
            *on, low, high = values
            name = (on[0], on[1] + (on[2] << 32)) if number == NAMED_WAIT else None
            target = self.numbers.get(name, 0) if name else on[0]
            self.make(event, lane, lane.open[0], target, low + (high << 32),
                      TABLE[number].name, name)

    def take_finish(self, event: Event, lane: Lane) -> None:
        if lane.front != event.number:
            raise OutputRefused(event.line, "the stream works on another number")
        if lane.due:
            self.meet_waits(lane)
        lane.open.popleft()
        lane.client.finish()
        self.waits.settle(event.stream)

    def raise_count(self, event: Event, lane: Lane, release: int) -> None:
        if release > lane.release:
            lane.release = release
            lane.counts.append(release)
            lane.steps.append(self.count)
            lane.clocks.append(lane.clock.copy())
            self.waits.settle(event.stream)

    def take_end(self, event: Event, lane: Lane) -> None:
        """A loss or a close."""
        if event.words and lane.open:
            lane.client.look(event, self.count)
        lane.open.clear()
        lane.gone = event
        self.waits.leave(event.stream)
        self.waits.settle(event.stream)

    # --- Waits ---

    def make(self, event: Event, lane: Lane, number: int, target: int, release: int, by: str,
             name: tuple[int, int] | None) -> None:
        """Makes a wait of a number, which may order what the number does after it."""
        wait = self.waits.make(event.stream, number, target, release, by, name)
        lane.due.setdefault(number, []).append(wait)

    def meet_waits(self, lane: Lane) -> None:
        """Orders the steps of releases before the next event of a stream."""
        for wait in lane.due.pop(lane.open[0], ()):
            target = self.stream(wait.target)
            if target is not None and self.is_ordering(wait, target):
                clock = target.clocks[target.step_of(wait.release)]
                lane.clock = [max(pair) for pair in zip(lane.clock, clock)]

    @staticmethod
    def is_ordering(wait: Wait, target: Lane) -> bool:
        """Whether a release orders what comes after a wait."""
        is_reached = wait.how == "dropped" and target.has_come(wait.release, wait.made)
        return wait.release > 0 and (wait.how == "release" or is_reached)

    # --- Conflicts ---

    def touch(self, here: int, lane: Lane, number: int, arguments: list[int]) -> None:
        """Compares a step with the latest ones of other streams that it conflicts with."""
        found: dict[tuple[int, int], int] = {}  # by image and event, the other stream
        for image, part, writes in touches_of(number, arguments):
            of_image = self.images.setdefault(image, {})
            for stream, traces in of_image.items():
                if stream != here and (first := traces.conflict(part, writes)) >= 0:
                    found[image, first] = stream
            if here not in of_image:
                of_image[here] = Traces()
            of_image[here].note(part, writes, self.count)
        if number == CREATE:
            self.texels += arguments[1] * arguments[2]
        for (image, first), stream in found.items():
            conflict = Conflict(image, first, self.count)
            if first > lane.clock[stream - 1]:
                self.races.append(conflict)
            else:
                pair = (stream, here) if stream < here else (here, stream)
                self.ordered.setdefault(pair, []).append(conflict)
