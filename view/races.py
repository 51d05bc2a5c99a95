"""What a run with workers may change, as findings, each a sentence and an object.

Where a run has none, each stream is settled, the images fit, and no two steps of different streams
conflict. Each run with workers then gives these images and these lines of the streams.
"""

import json
from bisect import bisect_left
from collections.abc import Iterator
from dataclasses import dataclass, field
from functools import cached_property
from typing import Any

from zorvleid.commands import TABLE, parts_of
from zorvleid.output import Output, OutputRefused

from .clocks import Clocks, Conflict
from .history import need_script_of
from .images import TEXELS_AT_MOST
from .plain import counted, joined
from .script import Script
from .settling import InFlight, is_settled_at_close
from .touching import Touch, meet, meeting, touches_of
from .waits import Wait

ONE_RESULT = "one result: each run with workers prints these images"


@dataclass(frozen=True)
class Finding:
    """A finding: its kind, a sentence, and its numbers. Events count from 1 here."""

    kind: str
    text: str
    facts: dict[str, Any]

    def object(self) -> dict[str, Any]:
        return {"kind": self.kind, **self.facts, "text": self.text}


@dataclass(eq=False)
class Failed:
    """The waits of one stream on another that orders nothing, in the order of their effect."""

    waits: list[Wait] = field(default_factory=list)
    # of each: the nearest one before it with a greater release, or -1
    before: list[int] = field(default_factory=list)

    def add(self, wait: Wait) -> None:
        at = len(self.waits) - 1
        while at >= 0 and self.waits[at].release <= wait.release:
            at = self.before[at]
        self.waits.append(wait)
        self.before.append(at)

    def last(self, number: int, event: int, release: int) -> Wait | None:
        """The last one for more than a release that comes before an event of an order number."""
        at = bisect_left(self.waits, (number, event), key=lambda it: (it.number, it.made)) - 1
        while at >= 0 and self.waits[at].release <= release:
            at = self.before[at]
        return self.waits[at] if at >= 0 else None


class Races:
    """The findings of a run, the most important first, and what they come to."""

    def __init__(self, output: Output, script: Script) -> None:
        need_script_of(output, script)
        self.output, self.script = output, script
        self.clocks = Clocks(output, script)
        if not all(lane.is_done() for lane in self.clocks.lanes):
            line = output.events[-1].line + 1 if output.events else 1
            raise OutputRefused(line, "the run is not whole: something of its script is left to do")
        self.races = [*self.lost(), *self.in_flight(), *self.closed(), *self.conflicts(),
                      *self.texels()]
        self.count = sum(map(len, self.clocks.ordered.values()))

    def __iter__(self) -> Iterator[Finding]:
        yield from self.races
        yield from self.ordered()

    def __str__(self) -> str:
        """The last line."""
        if self.races:
            return f"races: {len(self.races)}"
        if self.count:
            return f"ordered in this run: {self.count} conflicts are ordered by waits"
        return ONE_RESULT

    def lost(self) -> Iterator[Finding]:
        """The streams that were lost as out of memory, which no law speaks of."""
        for place, event in enumerate(self.output.events):
            if event.code == "memory":
                yield Finding(
                    "memory", f"stream {event.stream} is lost as out of memory (event {place + 1}):"
                    " a run with more memory goes on",
                    {"stream": event.stream, "event": place + 1})

    def in_flight(self) -> Iterator[Finding]:
        """The words that a client overwrites while the service may still fetch them."""
        for lane in self.clocks.lanes:
            for found in lane.client.found.values():
                yield Finding("word", text_of_words(found), {
                    "stream": found.stream, "places": sorted(found.places), "line": found.line,
                    "flush": found.flush, "event": found.event + 1})

    def closed(self) -> Iterator[Finding]:
        """The streams that are closed and do not wait for the end of their work."""
        for stream, lane in enumerate(self.clocks.lanes, 1):
            if not is_settled_at_close(lane.plan):
                line = lane.plan.lines[-1]
                yield Finding(
                    "close", f"stream {stream} may be closed with work left (line {line} of the "
                    "script): no finish stands between its last flush and its close",
                    {"stream": stream, "line": line})

    def texels(self) -> Iterator[Finding]:
        """Whether the images may fail for the texels of others."""
        count = self.clocks.texels
        if count > TEXELS_AT_MOST:
            yield Finding(
                "texels", f"the CreateImage commands ask for {count:,} texels together, more than "
                f"{TEXELS_AT_MOST:,}: which of them fails may depend on their order",
                {"texels": count})

    # --- Conflicts ---

    def conflicts(self) -> Iterator[Finding]:
        """The steps that conflict, and that nothing orders."""
        for conflict in self.clocks.races:
            waits = list(self.failed_waits(conflict))
            said = ["nothing orders them", *map(self.told, waits)]
            facts = self.facts(conflict)
            yield Finding("race", f"{pair(facts)}: {'; '.join(said)}", {
                **facts, "waits": [self.facts_of(wait) for wait in waits]})

    def ordered(self) -> Iterator[Finding]:
        """The conflicts that waits order in this run, by pairs of streams."""
        for (one, other), found in sorted(self.clocks.ordered.items()):
            many, facts = counted(len(found), "conflict"), self.facts(found[0])
            yield Finding(
                "ordered", f"streams {one} and {other}: waits order {many} here, and a run in "
                f"which a wait is dropped may order them otherwise; the first is "
                f"{pair(facts)}", {"streams": [one, other], "count": len(found), **facts})

    def step(self, place: int) -> tuple[str, list[Touch]]:
        """The name of the command of a step, and what it touches."""
        (_, header), *words = self.output.events[place].fetched()
        number, _ = parts_of(header)
        return TABLE[number].name, touches_of(number, [value for _, value in words])

    def facts(self, conflict: Conflict) -> dict[str, Any]:
        """The image, what both steps touch of it, and the steps."""
        image, *places = conflict
        (one, these), (other, those) = map(self.step, places)
        part = next(meeting(touch[1], its[1]) for touch in these if touch[0] == image
                    for its in those if meet(touch, its))
        first, second = (
            {"event": place + 1, "stream": self.output.events[place].stream, "command": name}
            for place, name in zip(places, (one, other)))
        return {"image": image, "part": part, "first": first, "second": second}

    # --- Waits that would have ordered two steps ---

    @cached_property
    def failed(self) -> dict[tuple[int, int], Failed]:
        """By the waiter and the stream that it waits for."""
        found: dict[tuple[int, int], Failed] = {}
        for wait in sorted(self.clocks.waits.all, key=lambda it: (it.number, it.made)):
            target = self.clocks.stream(wait.target)
            is_over = wait.how in ("guard", "closed", "dropped")
            if target is not None and is_over and not target.has_come(wait.release, wait.made):
                found.setdefault((wait.stream, wait.target), Failed()).add(wait)
        return found

    def failed_waits(self, conflict: Conflict) -> Iterator[Wait]:
        """Waits of either step for a release after the other, which would have ordered the two."""
        for waiting, other in (conflict[2:0:-1], conflict[1:]):
            streams = (self.output.events[waiting].stream, self.output.events[other].stream)
            target, failed = self.clocks.lanes[streams[1] - 1], self.failed.get(streams)
            if failed is not None:
                done = bisect_left(target.steps, other)
                release = target.counts[done - 1] if done else 0
                wait = failed.last(self.clocks.number_of[waiting], waiting, release)
                if wait is not None:
                    yield wait

    def told(self, wait: Wait) -> str:
        on = f"{self.name(wait.target)}:{wait.release}"
        has = f"had a fence on {on}" if wait.by == "fence" else f"had a {wait.by} on {on}"
        return f"order {wait.number} {has}, which {self.why(wait)}"

    def name(self, stream: int) -> str:
        """A stream as a fence names it."""
        space, number = self.script.names[stream - 1]
        return f"{number}" if self.script.version == 1 else f"{space}:{number}"

    @staticmethod
    def why(wait: Wait) -> str:
        if wait.how == "closed":
            return f"ended when stream {wait.target} was closed"
        if wait.how == "guard":
            return f"ended by a guard: stream {wait.target} had no lower number left"
        if "unprocessed" in wait.why:
            return f"was dropped: stream {wait.target} had no lower number"
        return f"was dropped: {wait.why}"

    def facts_of(self, wait: Wait) -> dict[str, Any]:
        return {"order": wait.number, "stream": wait.target, "release": wait.release, "by": wait.by,
                "how": wait.how, "event": wait.made + 1}


def lines(races: Races, is_json: bool) -> Iterator[str]:
    """A line for each finding, and the last line."""
    for finding in races:
        yield json.dumps(finding.object()) if is_json else finding.text
    last = {"kind": "sum", "races": len(races.races), "ordered": races.count, "text": str(races)}
    yield json.dumps(last) if is_json else str(races)


def pair(facts: dict[str, Any]) -> str:
    """An image, what is touched of it, and the two steps."""
    part = facts["part"]
    where = "the whole" if part is None else "{2} by {3} at {0}, {1}".format(*part)
    steps = ("{command} of stream {stream} (event {event})".format(**facts[name])
             for name in ("first", "second"))
    return f"image {facts['image']}, {where}: {' and '.join(steps)}"


def text_of_words(found: InFlight) -> str:
    places = joined(sorted(found.places))
    one, it = ("place", "it") if len(found.places) == 1 else ("places", "them")
    return (f"stream {found.stream} overwrites {one} {places} (line {found.line} of the script) "
            f"while flush {found.flush} may still fetch {it} (event {found.event + 1})")
