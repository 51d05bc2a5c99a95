"""What a run with workers may change, found a second time and slowly, by the definitions alone.

`Judged` reads a script and the events of one of its runs, as tests/model_history.py does, and notes
what its steps touch, the waits, and the words that were not always the same. `findings(..)` are the
objects that `races --json` must give, without their texts.
"""

from dataclasses import dataclass
from typing import Any

from tests.model_history import History, Standing
from tests.model_run import (
    CLEAR,
    COPY,
    CREATE,
    DELETE,
    UPLOAD,
    UPLOAD_BUCKET,
    UPLOAD_BUFFER,
    Fetched,
    Lost,
    Pending,
    Word,
)
from tests.model_script import Plan, Reader

Fact = dict[str, Any]
Touch = tuple[int, tuple[int, int, int, int] | None, bool]  # an image, a part or all, writes
NAMES = {CREATE: "CreateImage", DELETE: "DeleteImage", CLEAR: "ClearRect", COPY: "CopyRect",
         UPLOAD: "UploadRect", UPLOAD_BUCKET: "UploadBucket", UPLOAD_BUFFER: "UploadBuffer"}
TEXELS = 4_194_304


@dataclass
class Wait:
    """A wait of a number; events count from 1."""

    stream: int
    order: int
    target: int
    release: int
    made: int
    by: str
    how: str = "pending"
    step: int = 0  # the step that came to the release, where that orders

    def fact(self) -> Fact:
        return {"order": self.order, "stream": self.target, "release": self.release,
                "by": self.by, "how": self.how, "event": self.made}


@dataclass
class Step:
    """A step with what it touches, and all events that are ordered before it, as bits."""

    stream: int
    order: int
    command: int
    touches: list[Touch]
    before: int


def touches(command: int, a: list[int]) -> list[Touch]:
    if command in (CREATE, DELETE):
        return [(a[0], None, True)]
    if command == COPY:
        return [(a[0], (a[1], a[2], a[6], a[7]), False), (a[3], (a[4], a[5], a[6], a[7]), True)]
    return [(a[0], (a[1], a[2], a[3], a[4]), True)] if command in NAMES else []


def common(one: Touch, other: Touch) -> tuple[int, int, int, int] | str | None:
    """What two touches share where they conflict: a rectangle, or `all`; or None."""
    if one[0] != other[0] or not (one[2] or other[2]):
        return None
    if one[1] is None or other[1] is None:
        return one[1] or other[1] or "all"
    columns = [set_of(part[0], part[2]) for part in (one[1], other[1])]
    rows = [set_of(part[1], part[3]) for part in (one[1], other[1])]
    x, y = overlap(*columns), overlap(*rows)
    return (x.start, y.start, len(x), len(y)) if x and y else None


def set_of(begin: int, count: int) -> range:
    return range(begin, begin + count)


def overlap(one: range, other: range) -> range:
    return range(max(one.start, other.start), min(one.stop, other.stop))


class Judged(History):
    """A run with its steps, its waits, and the words in flight."""

    def __init__(self, script: Reader) -> None:
        super().__init__(script)
        self.steps: dict[int, Step] = {}
        self.waits: list[Wait] = []
        self.wait_of: dict[Pending, Wait] = {}
        self.counts: dict[int, list[tuple[int, int]]] = {}  # the releases of each stream
        self.before = [0] * len(self.streams)
        # by stream, flush and the action that changes a word: the places, and the first event
        self.changed: dict[tuple[int, int, int], tuple[set[int], int]] = {}
        self.texels = 0
        self.by = "fence"

    # --- Waits ---

    def wait(self, number: int, order: int, to: int, release: int) -> bool:
        target = self.target(to)
        reached = self.reached(to, release)
        wait = Wait(number, order, to, release, self.at, self.by)
        kept = super().wait(number, order, to, release)
        self.waits.append(wait)
        if kept:
            self.wait_of[self.pending[-1]] = wait
        else:
            wait.how = "dropped"
            if target is not None and target is not self.streams[number - 1]:
                wait.step = reached
        return kept

    def settle(self) -> None:
        was = [wait for wait in self.pending if not self.streams[wait.waiter - 1].gone]
        count = len(self.endings)
        super().settle()
        ended = sorted((w for w in was if w not in self.pending), key=lambda w: w[1:3])
        for pending, (_, _, to, release, how) in zip(ended, self.endings[count:], strict=True):
            wait = self.wait_of[pending]
            wait.how = how
            wait.step = self.reached(to, release) if how == "release" else 0

    def reached(self, stream: int, release: int) -> int:
        """The step that came to a release of at least 1, or 0."""
        return next((at for at, count in self.counts.get(stream, []) if 0 < release <= count), 0)

    def meet(self, number: int, order: int) -> None:
        """What is ordered before the next event of a stream, by the waits of its number."""
        for wait in self.waits:
            if (wait.stream, wait.order) == (number, order) and wait.step:
                self.before[number - 1] |= self.steps[wait.step].before | 1 << wait.step

    # --- Events ---

    def take_step(self, s: Standing, number: int, words: list[Word]) -> None:
        order = s.left[0][0]
        self.meet(number, order)
        command, a, _, _ = self.command_of(s, words)
        step = Step(number, order, command, touches(command, a), self.before[number - 1])
        self.steps[self.at] = step
        self.before[number - 1] |= 1 << self.at
        if command == CREATE:
            self.texels += a[1] * a[2]
        count = s.release
        self.by = "WaitToken" if command == 257 else "WaitSyncToken"
        if command == 256 and a[0] + (a[1] << 32) > count:
            self.counts.setdefault(number, []).append((self.at, a[0] + (a[1] << 32)))
        super().take_step(s, number, words)
        self.by = "fence"

    @staticmethod
    def command_of(s: Standing, words: list[Word]) -> Fetched:
        """The command of the words of a step, by its entries."""
        header = words[0][1]
        a = [value for _, value in words[1:header % 2**21]]
        return header // 2**21, a, words, header % 2**21

    def take_finish(self, s: Standing, number: int, order: int) -> None:
        self.meet(number, order)
        super().take_finish(s, number, order)

    def judged_words(self, s: Standing, words: list[Word]) -> Fetched | Lost:
        """Notes the words that have another value at some moment since their flush."""
        flush, begin = s.finished, s.place_of[s.left[0][0]]
        for place, _ in words:
            could = s.puts.between(place, begin, s.next)
            change = next((moment for moment, value in could if value != could[0][1]), 0)
            if change:
                key = (self.streams.index(s) + 1, flush + 1, change - 1)
                self.changed.setdefault(key, (set(), self.at))[0].add(place)
        return super().judged_words(s, words)


# --- Findings ---


def lines_of_actions(text: str) -> list[list[int]]:
    """The line of each action of each stream."""
    found: list[list[int]] = []
    for number, line in enumerate(text.split("\n"), 1):
        words = line.split()
        match words[:1]:
            case ["stream"]:
                found.append([])
            case ["put"]:
                found[-1] += [number] * (len(words) - 2)
            case ["fill"]:
                found[-1] += [number] * (len(words) - 3)
            case ["flush" | "finish" | "token" | "close" | "dump"]:
                found[-1].append(number)
    return found


def is_closed_early(plan: Plan) -> bool:
    """Whether a plan closes with no finish between its last flush and that."""
    kinds = [action.kind for action in plan.actions]
    after = kinds[len(kinds) - kinds[::-1].index("flush"):] if "flush" in kinds else kinds
    return plan.closed() and "finish" not in after


def words_in_flight(judged: Judged, text: str) -> list[Fact]:
    lines = lines_of_actions(text)
    found: dict[tuple[int, int, int], tuple[set[int], int]] = {}
    for (stream, flush, action), (places, event) in judged.changed.items():
        key = (stream, flush, lines[stream - 1][action])
        had, first = found.get(key, (set(), event))
        found[key] = (had | places, min(first, event))
    return [{"kind": "word", "stream": stream, "places": sorted(places), "line": line,
             "flush": flush, "event": event}
            for (stream, flush, line), (places, event) in found.items()]


def conflicts(judged: Judged) -> list[tuple[Fact, bool]]:
    """For each step, stream and image the latest step that it conflicts with; and their order."""
    found = []
    for at, step in judged.steps.items():
        latest: dict[tuple[int, int], tuple[int, Fact]] = {}
        for touch in step.touches:
            own: dict[tuple[int, int], tuple[int, Fact]] = {}
            for event, other in judged.steps.items():
                for theirs in other.touches if event < at and other.stream != step.stream else ():
                    part = common(theirs, touch)
                    if part is not None:
                        key = (other.stream, touch[0])
                        if key not in own or own[key][0] < event:
                            own[key] = event, fact_of(judged, touch[0], event, at)
            for key, value in own.items():
                found.append((value[1], bool(step.before >> value[0] & 1)))
    return unique(found)


def unique(found: list[tuple[Fact, bool]]) -> list[tuple[Fact, bool]]:
    """Each conflict once: a copy within an image may have one twice."""
    return [item for at, item in enumerate(found) if item not in found[:at]]


def fact_of(judged: Judged, image: int, first: int, second: int) -> Fact:
    steps = [judged.steps[event] for event in (first, second)]
    parts = [common(one, other) for one in steps[0].touches for other in steps[1].touches
             if one[0] == image]
    part = next(part for part in parts if part is not None)
    return {"image": image, "part": None if part == "all" else list(part),
            **{name: {"event": event, "stream": step.stream, "command": NAMES[step.command]}
               for name, event, step in zip(("first", "second"), (first, second), steps)}}


def failed_waits(judged: Judged, fact: Fact) -> list[Fact]:
    """The waits of either step that order nothing, and would have ordered both."""
    found = []
    for waiting, other in ((fact["second"], fact["first"]), (fact["first"], fact["second"])):
        order = judged.steps[waiting["event"]].order
        had = max((count for at, count in judged.counts.get(other["stream"], [])
                   if at < other["event"]), default=0)
        waits = [wait for wait in judged.waits
                 if (wait.stream, wait.target) == (waiting["stream"], other["stream"])
                 and wait.how in ("dropped", "guard", "closed") and not wait.step
                 and (wait.order, wait.made) < (order, waiting["event"]) and wait.release > had]
        if waits:
            found.append(sorted(waits, key=lambda wait: (wait.order, wait.made))[-1])
    return [wait.fact() for wait in found]


def findings(text: str, events: list[str]) -> list[Fact]:
    """All findings of a run, as `races --json` tells them, without their texts and their order."""
    script = Reader(text.encode())
    judged = Judged(script)
    for event in events:
        judged.take(event)
    judged.need_complete()
    found = words_in_flight(judged, text)
    lines = lines_of_actions(text)
    found += [{"kind": "close", "stream": number, "line": lines[number - 1][-1]}
              for number, plan in enumerate(script.plans, 1) if is_closed_early(plan)]
    found += [{"kind": "texels", "texels": judged.texels}] if judged.texels > TEXELS else []
    pairs: dict[tuple[int, ...], list[Fact]] = {}
    for fact, is_ordered in conflicts(judged):
        if is_ordered:
            pair = sorted(fact[name]["stream"] for name in ("first", "second"))
            pairs.setdefault(tuple(pair), []).append(fact)
        else:
            found.append({"kind": "race", **fact, "waits": failed_waits(judged, fact)})
    races = len(found)
    ordered = [{"kind": "ordered", "streams": list(pair), "count": len(facts), **facts[0]}
               for pair, facts in sorted(pairs.items())]
    return [*found, *ordered,
            {"kind": "sum", "races": races, "ordered": sum(map(len, pairs.values()))}]
