"""The judge of a history that some run printed, written a second time and slowly.

It decides whether the history is legal and complete, and what follows from it. The run may be one
on threads, so a script has many histories. `judged(script, output)` reads the journal of an output.
It gives a `History`, or raises `Wrong`: the journal breaks a rule, is not complete, or the other
lines do not follow from it. model_views.py judges the lines of viewers in an output.
`verdict(script, lines)` is what `verify` must say of a journal. It shares nothing with the crates.
"""

import re
from bisect import bisect_right
from collections.abc import Iterator
from typing import NamedTuple

from tests import model, model_views
from tests.model_run import (
    COPY,
    CREATE,
    DELETE,
    Fetched,
    Lost,
    Standings,
    Stream,
    Word,
    fetched_command,
    shown,
)
from tests.model_script import Plan, Reader

NUMBER = "(0|[1-9][0-9]{0,9})"
WORDS = "((?: (?:0|[1-9][0-9]{0,9}):[0-9a-f]{8})*)"
EVENTS = {
    "order": re.compile(f"order {NUMBER} {NUMBER} {NUMBER}"),
    "step": re.compile(f"step {NUMBER}{WORDS}"),
    "finish": re.compile(f"finish {NUMBER} {NUMBER}"),
    "memory": re.compile(f"lost {NUMBER} memory"),
    "lost": re.compile(f"lost {NUMBER} ([12346]){WORDS}"),
    "close": re.compile(f"close {NUMBER}"),
}
Could = dict[int, list[tuple[int, int]]]  # the moments and values of each place
OTHER_PARTS = ("image", "stream", "mark", "dump", "view")


class Wrong(Exception):
    """A fault of an output."""


class Broken(Wrong):
    """The first event that breaks a rule, counted from 1, and the least rule that it breaks."""

    def __init__(self, event: int, rule: int) -> None:
        super().__init__(f"event {event} breaks rule {rule}")
        self.event, self.rule = event, rule


class NotComplete(Wrong):
    """A journal that leaves something to do."""

    def __init__(self) -> None:
        super().__init__("the journal is not complete")


class NoEvent(Wrong):
    """A line that is no event's, counted from 1."""

    def __init__(self, line: int) -> None:
        super().__init__(f"line {line} is no event")
        self.line = line


class Event(NamedTuple):
    """The kind of an event, its numbers and its words."""

    kind: str
    numbers: list[int]
    words: list[Word]


def read_event(line: str) -> Event | None:
    """The event of a line, or None."""
    shapes = ((kind, shape.fullmatch(line)) for kind, shape in EVENTS.items())
    kind, found = next(((kind, found) for kind, found in shapes if found), ("", None))
    if found is None:
        return None
    parts = list(found.groups())
    words: list[Word] = []
    if kind in ("step", "lost"):
        words = [(int(place), int(value, 16))
                 for place, value in (word.split(":") for word in parts.pop().split())]
    numbers = [int(part) for part in parts]
    if any(number >= 2**32 for number in numbers + [place for place, _ in words]):
        return None
    return Event(kind, numbers, words)


class Puts:
    """The values of each place of a plan: how many actions were done when it got one, and which."""

    def __init__(self, plan: Plan) -> None:
        self.of: dict[int, tuple[list[int], list[int]]] = {}
        for done, action in enumerate(plan.actions, 1):
            if action.kind == "put":
                moments, values = self.of.setdefault(action.number, ([0], [0]))
                moments.append(done)
                values.append(action.value)

    def between(self, place: int, begin: int, end: int) -> list[tuple[int, int]]:
        """The moments between two numbers of actions at which a place gets one of these values."""
        moments, values = self.of.get(place, ([0], [0]))
        here, behind = bisect_right(moments, begin) - 1, bisect_right(moments, end)
        return list(zip([begin] + moments[here + 1:behind], values[here:behind]))


class Standing(Stream):
    """A stream and its client: `next` is how far the client can have come."""

    def __init__(self, plan: Plan) -> None:
        super().__init__(plan)
        self.puts = Puts(plan)
        self.places = [at for at, action in enumerate(plan.actions) if action.kind == "flush"]
        self.ordered = 0
        # of each order number: how many actions stand before its flush
        self.place_of: dict[int, int] = {}
        self.finish_events: list[int] = []
        # Of each result place: the events that wrote it, and the values.
        self.written: dict[int, list[tuple[int, int]]] = {}
        self.go()

    def go(self) -> None:
        while self.next < len(self.plan.actions) and self.passes():
            self.flushes += self.plan.actions[self.next].kind == "flush"
            self.next += 1

    def awaits_before_last(self) -> bool:
        """Whether an await stands between the flush that was ordered last and the one before."""
        last, before = self.places[self.ordered - 1], self.places[self.ordered - 2]
        return any(action.kind in ("finish", "token") for action in self.plan.actions[before:last])


class History(Standings[Standing]):
    """A script with the events that were judged of it."""

    def __init__(self, script: Reader) -> None:
        super().__init__(script, [Standing(plan) for plan in script.plans])
        self.at = 0  # which event is judged
        # of all texels: now, and after each number of events
        self.sum, self.sums, self.looks = 0, [0], model_views.Looks()
        # What only threads give, and what they give more often.
        self.newer_words = self.torn_commands = 0
        self.early_orders = self.late_orders = self.late_dumps = 0

    def take(self, line: str) -> None:
        """Judges one more event by what stood before it."""
        event = read_event(line)
        assert event is not None, f"{line!r} is no event"
        words, number = event.words, event.numbers[0]
        s = self.target(number)
        self.at = len(self.events) + 1
        match event:
            case Event("order", [_, order, place], _):
                self.take_order(s, number, order, place)
            case Event("step", _, _):
                self.take_step(self.first(s, number), number, words)
            case Event("finish", [_, order], _):
                self.take_finish(self.first(s, number, order), number, order)
            case Event("lost", [_, code], _):
                self.take_lost(self.first(s, number), number, code, words)
            case Event("memory", _, _):
                self.take_memory(self.open(s, 11), number)
            case _:
                self.take_close(self.open(s, 12), number)
        if len(self.events) < self.at:
            self.events.append(line)
        self.sums.append(self.sum % 2**32)
        if s:
            s.go()

    def need(self, holds: object, rule: int) -> None:
        if not holds:
            raise Broken(self.at, rule)

    def open(self, s: Standing | None, rule: int) -> Standing:
        """The stream of an event, which must be there and neither lost nor closed."""
        if s is None or s.gone:
            raise Broken(self.at, rule)
        return s

    def take_order(self, s: Standing | None, number: int, order: int, place: int) -> None:
        s = self.open(s, 1)
        self.need(order == self.orders + 1, 2)
        self.need(s.places[s.ordered:s.ordered + 1] == [place], 3)
        self.early_orders += place > s.next
        self.orders = order
        action = s.plan.actions[place]
        for target, release in action.fences:
            self.wait(number, order, self.number_of(target), release)
        s.left.append((order, action.number))
        s.place_of[order] = place
        s.ordered += 1
        self.late_orders += s.finished == s.ordered - 1 > 0 and not s.awaits_before_last()

    def first(self, s: Standing | None, number: int, due: int | None = None) -> Standing:
        """The stream of an event that finishes its first unprocessed number, by rules 4 to 6."""
        if s is None or not s.left or due not in (None, s.left[0][0]):
            raise Broken(self.at, 4)
        order = s.left[0][0]
        self.need(not any(w[:2] == (number, order) for w in self.pending), 5)
        self.need(s.place_of[order] <= s.next, 6)
        return s

    def judged_words(self, s: Standing, words: list[Word]) -> Fetched | Lost:
        """The verdict on words by rules 7 and 8: the command with its arguments, or the error."""
        order, put = s.left[0]
        self.need(s.entries % s.plan.ring != put, 7)
        s.words = dict(reversed(words))
        try:
            verdict: Fetched | Lost = (found := fetched_command(s))
            fetched = found[2]
        except Lost as lost:
            verdict, fetched = lost, lost.words
        self.need([place for place, _ in words] == [place for place, _ in fetched], 7)
        begin = s.place_of[order]
        could = {place: s.puts.between(place, begin, s.next) for place, _ in words}
        self.need(all(any(value == one for _, one in could[place]) for place, value in words), 8)
        newer = sum(could[place][0][1] != value for place, value in words)
        self.newer_words += newer
        self.torn_commands += newer > 0 and is_torn(s, words, could)
        return verdict

    def take_step(self, s: Standing, number: int, words: list[Word]) -> None:
        verdict = self.judged_words(s, words)
        if isinstance(verdict, Lost):
            raise Broken(self.at, 9)
        command, a, fetched, size = verdict
        self.events.append(f"step {number}" + shown(words))
        s.entries += size
        s.fetched += len(fetched)
        before = dict(s.results)
        self.execute(number, s.left[0][0], s, command, a, fetched[1 + len(a):])
        for place, value in s.results.items():
            if place not in before or before[place] != value:
                s.written.setdefault(place, []).append((self.at, value))

    def take_lost(self, s: Standing, number: int, code: int, words: list[Word]) -> None:
        verdict = self.judged_words(s, words)
        self.need(isinstance(verdict, Lost) and verdict.code == code, 9)
        self.end(number, s, f"lost {code}", f"lost {number} {code}" + shown(words))

    def take_finish(self, s: Standing, number: int, order: int) -> None:
        self.need(s.entries % s.plan.ring == s.left[0][1], 10)
        s.left.pop(0)
        s.finished += 1
        s.finish_events.append(self.at)
        self.settle()

    def take_memory(self, s: Standing, number: int) -> None:
        self.end(number, s, "lost memory", f"lost {number} memory")

    def take_close(self, s: Standing, number: int) -> None:
        self.need(s.plan.closed(), 12)
        self.need(s.ordered == len(s.places) and s.next == len(s.plan.actions) - 1, 12)
        self.end(number, s, "closed", f"close {number}")

    def is_complete(self) -> bool:
        return all(
            s.gone or (not s.plan.closed() and s.finished == len(s.places)) for s in self.streams
        )

    def need_complete(self) -> None:
        """Raises where something is left to do."""
        if not self.is_complete():
            raise NotComplete

    def draw(self, s: Stream, command: int, a: list[int], data: bytes) -> int | None:
        """The commands on images, with the sum of the texels that they change."""
        before = self.covered(command, a)
        error = super().draw(s, command, a, data)
        if error is None:
            self.sum += self.covered(command, a) - before
        return error

    def covered(self, command: int, a: list[int]) -> int:
        """The sum of the texels that a command changes: of a rectangle, or of a whole image."""
        if command in (CREATE, DELETE):
            return sum(self.images[a[0]][2]) if a[0] in self.images else 0
        image, x, y, w, h = a[3:8] if command == COPY else a[:5]
        return model_views.sum_of(self.images, image, x, y, w, h)

    # --- The dump lines ---

    def dumps_planned(self) -> Iterator[tuple[int, Standing, int, int, int]]:
        """Each printed dump: its stream, action place and result place, and earlier flushes."""
        for number, s in enumerate(self.streams, 1):
            flushes = 0
            for at, action in enumerate(s.plan.actions):
                flushes += action.kind == "flush"
                if action.reads and s.gone in (None, "closed"):
                    yield number, s, at, action.number, flushes

    def judge_dumps(self, lines: list[str]) -> None:
        planned = list(self.dumps_planned())
        if len(lines) != len(planned):
            raise Wrong(f"there are {len(lines)} dump lines, and {len(planned)} are due")
        for line, (number, s, at, place, flushes) in zip(lines, planned):
            begin = s.finish_events[flushes - 1] if flushes else 0
            written = s.written.get(place, [])
            here = bisect_right([event for event, _ in written], begin)
            could = [written[here - 1][1] if here else 0] + [value for _, value in written[here:]]
            heads = [f"dump {number} {at} {place} {value:08x}" for value in could]
            if line not in heads:
                raise Wrong(f"`{line}` stands where `{heads[0]}`, or a later value, is due")
            self.late_dumps += line != heads[0]

    # --- The view lines ---

    def judge_views(self, lines: list[str], viewers: int) -> None:
        fault, self.looks = model_views.fault_of(lines, viewers, self.sums)
        if fault:
            raise Wrong(fault)


def is_torn(s: Standing, words: list[Word], could: Could) -> bool:
    """Whether no one moment gives all of these words, which the places could have one by one."""
    moments = {moment for place, _ in words for moment, _ in could[place]}
    values = {place: (s.puts.of.get(place, ([0], [0]))) for place, _ in words}

    def value_at(place: int, moment: int) -> int:
        began, put = values[place]
        return put[bisect_right(began, moment) - 1]

    return not any(
        all(value_at(place, moment) == value for place, value in words) for moment in moments
    )


def history_of(script: Reader, lines: list[str]) -> History:
    """The history of these event lines. All of them are read before one is judged."""
    history = History(script)
    for number, line in enumerate(lines, 1):
        if read_event(line) is None:
            raise NoEvent(number)
    for line in lines:
        history.take(line)
    history.need_complete()
    return history


def journal_end(lines: list[str]) -> int:
    """The number of lines before the first one of another part."""
    heads = tuple(part + " " for part in OTHER_PARTS)
    return next((at for at, line in enumerate(lines) if line.startswith(heads)), len(lines))


def judged(script: Reader, output: bytes, viewers: int = 0) -> History:
    """The history of an output whose other lines follow from it; else raises the fault."""
    lines = output.decode("latin-1").split("\n")
    if lines.pop():
        raise Wrong("the last line has no line feed")
    before = model.head(History(script))
    if lines[:len(before)] != before:
        raise Wrong("the head or the names are not those of the script")
    lines = lines[len(before):]
    end = journal_end(lines)
    history = history_of(script, lines[:end])
    rest = lines[end:]
    due = model.rest(history)
    for line, (want, have) in enumerate(zip(due, rest), 1):
        if want != have:
            raise Wrong(
                f"line {line} after the journal: {want[:90]!r} follows from it, and {have[:90]!r} "
                "stands there")
    if len(rest) < len(due):
        raise Wrong(f"line {len(rest) + 1} after the journal is missing: {due[len(rest)][:90]!r}")
    rest = rest[len(due):]
    end = next((at for at, line in enumerate(rest) if line.startswith("view ")), len(rest))
    history.judge_dumps(rest[:end])
    history.judge_views(rest[end:], viewers)
    return history


def judged_front(script: Reader, output: bytes) -> bool | None:
    """Judges the first lines of an output as far as they go, but for dumps and view lines.

    It answers whether the journal is whole, and None where the lines before it are not all there.
    """
    lines = output.decode("latin-1").split("\n")[:-1]
    history = History(script)
    before = model.head(history)
    if lines[:len(before)] != before[:len(lines)]:
        raise Wrong("the head or the names are not those of the script")
    if len(lines) < len(before):
        return None
    lines = lines[len(before):]
    end = journal_end(lines)
    for number, line in enumerate(lines[:end], 1):
        if read_event(line) is None:
            raise NoEvent(number)
        history.take(line)
    if end < len(lines):
        history.need_complete()
        for want, have in zip(model.rest(history), lines[end:]):
            if want != have:
                raise Wrong(
                    f"{want[:90]!r} follows from the journal, and {have[:90]!r} stands there"
                )
    return history.is_complete()


def verdict(script: Reader, lines: list[str]) -> tuple[int, str | int]:
    """The status and the line on standard error of `verify` on event lines.

    A line that is no event is reported by its number among them.
    """
    try:
        history_of(script, lines)
    except NoEvent as wrong:
        return 11, wrong.line
    except Broken as broken:
        return 9, f"no: event {broken.event} rule {broken.rule}"
    except NotComplete:
        return 10, "not complete"
    return 0, ""


def status_of(output: bytes) -> tuple[int, bytes]:
    """The status that a run ends with whose journal this is, and the line on standard error."""
    lost = [
        line.split(" ") for line in output.decode("latin-1").split("\n") if line.startswith("lost ")
    ]
    if any(words[2:] == ["memory"] for words in lost):
        return 8, b"streams were lost for want of memory\n"
    return (1, b"some streams were lost\n") if lost else (0, b"")
