"""The numbers of a run, of each stream and of all: commands, flushes, texels, bytes, waits.

A wait is counted at the stream that waits. Its length is the number of events from the one that
made it to the one that ended it.
"""

from collections import Counter
from collections.abc import Iterable, Iterator
from dataclasses import dataclass, field

from zorvleid.output import Event

from .history import History
from .plain import counted
from .standing import Stand, Standing
from .waits import Wait
from .working import Deed

EVENTS = ("order", "step", "finish", "lost", "close")
ERRORS = ("0501", "0502", "0505")
STORES = ("buckets", "buffers", "results")
# how waits end, and the others: gone with their own stream, or pending where a journal is cut
ENDINGS = ("release", "guard", "closed", "gone", "pending")
HAVE_LENGTH = ENDINGS[:3]
Record = dict[str, object]


@dataclass(eq=False)
class Counts:
    """The numbers of one stream, or of all."""

    events: Counter[str] = field(default_factory=Counter)
    commands: Counter[str] = field(default_factory=Counter)
    failed: Counter[str] = field(default_factory=Counter)
    stored: Counter[str] = field(default_factory=Counter)  # bytes
    texels: int = 0
    words: int = 0
    waits: list[Wait] = field(default_factory=list)

    def take(self, event: Event, deed: Deed, standing: Standing) -> None:
        """Counts an event of the stream."""
        self.events[event.kind] += 1
        if event.kind != "step" or deed.command is None:
            return
        self.commands[deed.command.name] += 1
        if deed.mark == "failed":
            self.failed[deed.error] += 1
            return
        written = standing.written
        if written is not None and written.kind == "wrote":
            self.texels += written.w * written.h
        self.store(deed, standing.of(event))

    def store(self, deed: Deed, stand: Stand) -> None:
        """Counts the bytes that a command wrote into a bucket, a buffer or result memories."""
        assert deed.command is not None
        told = deed.command.values
        match deed.command.name:
            case "SetBucketData" | "SetBucketDataImmediate":
                self.stored["buckets"] += told["size"]
            case "BufferData":
                self.stored["buffers"] += told["size"]
            case "GetBucketData":
                self.stored["results"] += told["size"]
            case "GetBucketStart":
                whole = len(stand.buckets[told["bucket"]])
                self.stored["results"] += 4 + min(whole, told["data_size"])

    def add(self, other: "Counts") -> None:
        """Adds the numbers of another stream."""
        for own, others in ((self.events, other.events), (self.commands, other.commands),
                            (self.failed, other.failed), (self.stored, other.stored)):
            own.update(others)
        self.texels += other.texels
        self.words += other.words
        self.waits += other.waits


class Stats:
    """The numbers of a run. It is called after each event of a history, as a `watch` of it."""

    def __init__(self) -> None:
        self.streams: list[Counts] = []
        self.all = Counts()

    def __call__(self, event: Event, deed: Deed, standing: Standing) -> None:
        self.make(len(standing.streams))
        self.streams[event.stream - 1].take(event, deed, standing)

    def make(self, streams: int) -> None:
        """One for each stream."""
        self.streams += [Counts() for _ in range(streams - len(self.streams))]

    def end(self, history: History) -> None:
        """Takes what is known at the end, and sums up."""
        self.make(len(history.lanes))
        for wait in history.standing.waits.all:
            self.streams[wait.stream - 1].waits.append(wait)
        for counts, lane in zip(self.streams, history.lanes):
            counts.words = lane.fetched
            self.all.add(counts)
        self.all.waits = history.standing.waits.all


# --- As a record ---


def length_of(wait: Wait) -> int:
    return wait.ended - wait.made


@dataclass(frozen=True)
class Lengths:
    """The lengths of waits that ended: the middle one, the lower of two, and the first longest."""

    count: int
    median: int | None
    longest: Wait | None

    @staticmethod
    def of(waits: Iterable[Wait]) -> "Lengths":
        ended = [wait for wait in waits if wait.how in HAVE_LENGTH]
        rising = sorted(map(length_of, ended))
        if not rising:
            return Lengths(0, None, None)
        return Lengths(len(ended), rising[(len(rising) - 1) // 2], max(ended, key=length_of))

    def record(self) -> Record:
        wait = self.longest
        told = None if wait is None else {
            "events": length_of(wait), "stream": wait.stream, "order": wait.number,
            "target": wait.target, "release": wait.release, "by": wait.by, "how": wait.how,
            "made": wait.made + 1, "ended": wait.ended + 1}
        return {"count": self.count, "median": self.median, "longest": told}


def waits_of(counts: Counts) -> dict[str, int]:
    """How many waits were made, dropped and kept, and how the kept ones ended."""
    hows = Counter(wait.how for wait in counts.waits)
    made, dropped = len(counts.waits), hows["dropped"]
    return {"made": made, "dropped": dropped, "kept": made - dropped,
            **{how: hows[how] for how in ENDINGS}}


def record_of(counts: Counts) -> Record:
    """The numbers of a stream, or of all, by their names."""
    errors = (*ERRORS, *sorted(counts.failed.keys() - set(ERRORS)))
    return {
        "events": {kind: counts.events[kind] for kind in EVENTS},
        "flushes": counts.events["order"],
        "commands": dict(sorted(counts.commands.items())),
        "failed": {error: counts.failed[error] for error in errors},
        "texels": counts.texels,
        "bytes": {store: counts.stored[store] for store in STORES},
        "words": counts.words,
        "waits": waits_of(counts),
        "lengths": Lengths.of(counts.waits).record(),
    }


def record(stats: Stats, has_script: bool) -> Record:
    """All numbers, as docs/stats.schema.json has them."""
    streams = [{"stream": number} | record_of(counts)
               for number, counts in enumerate(stats.streams, 1)]
    return {"all_fences": has_script, "all": record_of(stats.all), "streams": streams}


# --- As a table ---

EVENT_ROWS = dict(zip(EVENTS, ("flushes, by an order", "steps", "finishes", "losses", "closes")))
WAIT_ROWS = {
    "made": "waits made", "dropped": "  dropped at once", "kept": "  kept",
    "release": "    ended by a release", "guard": "    ended by a guard",
    "closed": "    ended by a close", "gone": "    gone with their stream",
    "pending": "    pending",
}
STORE_ROWS = dict(zip(STORES, ("into buckets", "into buffers", "into result memories")))
UNKNOWN = ("Fences that were dropped, or gone with their stream, are not counted: "
           "--script FILE names the script that has them.")


def numbers_of(counts: Counts) -> dict[str, int | None]:
    """The rows of the table by their words, which are indented below a sum; None is no length."""
    rows: dict[str, int | None] = {}

    def sum_up(words: str, parts: Counter[str], names: dict[str, str]) -> None:
        rows[words] = parts.total()
        rows.update((f"  {name}", parts[part]) for part, name in names.items())

    sum_up("events", counts.events, EVENT_ROWS)
    sum_up("commands", counts.commands, {name: name for name in sorted(counts.commands)})
    sum_up("failed commands", counts.failed, {error: error for error in sorted(counts.failed)})
    rows["texels written"] = counts.texels
    sum_up("bytes written", counts.stored, STORE_ROWS)
    rows["words fetched"] = counts.words
    rows.update((WAIT_ROWS[name], number) for name, number in waits_of(counts).items())
    length = Lengths.of(counts.waits)
    rows["  median length, in events"] = length.median
    rows["  longest"] = None if length.longest is None else length_of(length.longest)
    return rows


def lines(stats: Stats, has_script: bool) -> Iterator[str]:
    """A column for all and one for each stream. A part that is 0 everywhere is left out."""
    columns = [numbers_of(one) for one in (stats.all, *stats.streams)]
    names = [name for name in columns[0]
             if name[0] != " " or any(column.get(name) for column in columns)]
    wide = max(map(len, names))
    cells = [[head, *(shown(column.get(name, 0)) for name in names)]
             for head, column in zip(heads(len(columns)), columns)]
    for at, name in enumerate(["", *names]):
        row = "  ".join(cell[at].rjust(max(map(len, cell))) for cell in cells)
        yield f"{name:<{wide}}  {row}"
    yield from longest(stats.all.waits)
    if not has_script and stats.streams:
        yield UNKNOWN


def heads(columns: int) -> list[str]:
    return ["all", *(f"stream {number}" for number in range(1, columns))]


def shown(number: int | None) -> str:
    return "-" if number is None else f"{number:,}"


def longest(waits: Iterable[Wait]) -> Iterator[str]:
    """A sentence on the longest wait, where one ended."""
    if (wait := Lengths.of(waits).longest) is not None:
        yield (f"The longest wait, of {counted(length_of(wait), 'event')}: order {wait.number} of "
               f"stream {wait.stream} waits for {wait}, from event {wait.made + 1} to event "
               f"{wait.ended + 1}.")
