"""The numbers of a run, counted a second time: what `zorvleid stats --json` must say of an output.

`stats(script, output)` judges the journal of an output as model_history.py does, and counts on the
way. It shares nothing with view/.
"""

from collections import Counter
from collections.abc import Sequence
from dataclasses import dataclass
from typing import Any

from tests import model, model_run
from tests.model_history import History, Standing, journal_end
from tests.model_run import Stream, Word
from tests.model_script import Reader

NAMES = dict(enumerate((
    "Noop", "SetToken", "SetBucketSize", "SetBucketData", "SetBucketDataImmediate",
    "GetBucketStart", "GetBucketData"))) | dict(enumerate((
        "InsertFence", "WaitToken", "CreateImage", "DeleteImage", "ClearRect", "CopyRect",
        "UploadRect", "UploadBucket", "CreateBuffer", "DeleteBuffer", "BufferData",
        "UploadBuffer", "WaitSyncToken"), 256))
DRAWING = {model_run.CLEAR: 3, model_run.COPY: 6, model_run.UPLOAD: 3, model_run.UPLOAD_BUCKET: 3,
           model_run.UPLOAD_BUFFER: 3}  # where the width stands among the arguments
STORES = {model_run.SET_BUCKET_DATA: "buckets", model_run.SET_BUCKET_IMMEDIATE: "buckets",
          model_run.BUFFER_DATA: "buffers", model_run.GET_BUCKET_DATA: "results"}
KINDS = ("order", "step", "finish", "lost", "close")
HOWS = ("release", "guard", "closed", "gone", "pending")
Record = dict[str, Any]


@dataclass
class Wait:
    """A wait: who waits for whom, by what, from which event to which, and how it ended."""

    who: Record
    by: str
    made: int
    how: str
    ended: int = 0


class Counting(History):
    """A history that counts what its events do."""

    def __init__(self, script: Reader) -> None:
        super().__init__(script)
        count = len(self.streams)
        self.kinds = [Counter[str]() for _ in range(count)]
        self.commands = [Counter[str]() for _ in range(count)]
        self.stored = [Counter[str]() for _ in range(count)]
        self.texels = [0] * count
        self.by = ""  # what makes the next wait
        self.waits: list[Wait] = []
        self.kept: dict[tuple[int, int, int], Wait] = {}  # by stream, order and position

    def take(self, line: str) -> None:
        super().take(line)
        kind, number = line.split(" ")[:2]
        self.kinds[int(number) - 1][kind] += 1

    def take_order(self, s: Standing | None, number: int, order: int, place: int) -> None:
        self.by = "fence"
        super().take_order(s, number, order, place)

    def execute(
        self, number: int, order: int, s: Stream, command: int, a: list[int], loaded: list[Word]
    ) -> bool:
        """Does what a command does, and counts it."""
        self.by = NAMES[command]
        self.commands[number - 1][NAMES[command]] += 1
        errors = sum(s.errors)
        kept = super().execute(number, order, s, command, a, loaded)
        if command in DRAWING and sum(s.errors) == errors:
            self.texels[number - 1] += a[DRAWING[command]] * a[DRAWING[command] + 1]
        if command in STORES:
            self.stored[number - 1][STORES[command]] += a[2]
        if command == model_run.GET_BUCKET_START:
            self.stored[number - 1]["results"] += 4 + len(s.buckets[a[0]][:a[3]])
        return kept

    def wait(self, number: int, order: int, to: int, release: int) -> bool:
        kept = super().wait(number, order, to, release)
        who = {"stream": number, "order": order, "target": to, "release": release}
        wait = Wait(who, self.by, self.at, "pending" if kept else "dropped")
        self.waits.append(wait)
        if kept:
            self.kept[number, order, self.marks_made[order]] = wait
        return kept

    def settle(self) -> None:
        """Ends waits, and keeps with which event each of them ended."""
        before, count = sorted(self.pending, key=lambda w: w[1:3]), len(self.endings)
        super().settle()
        hows = iter(self.endings[count:])
        for pending in before:
            if pending not in self.pending:
                wait = self.kept.pop(pending[:3])
                is_gone = self.streams[pending[0] - 1].gone
                wait.how, wait.ended = "gone" if is_gone else next(hows)[4], self.at


def lengths(waits: Sequence[Wait]) -> Record:
    """How many waits ended, the middle length, and the first wait of the greatest length."""
    ended = [wait for wait in waits if wait.how in HOWS[:3]]
    if not ended:
        return {"count": 0, "median": None, "longest": None}
    rising = sorted(wait.ended - wait.made for wait in ended)
    longest = next(wait for wait in ended if wait.ended - wait.made == rising[-1])
    return {"count": len(ended), "median": rising[(len(ended) + 1) // 2 - 1],
            "longest": {"events": rising[-1], **longest.who, "by": longest.by, "how": longest.how,
                        "made": longest.made, "ended": longest.ended}}


def record_of(history: Counting, numbers: Sequence[int]) -> Record:
    """The numbers of some streams together; these count from 0."""
    streams = [history.streams[number] for number in numbers]

    def total(counts: Sequence[Counter[str]]) -> Counter[str]:
        return sum((counts[number] for number in numbers), Counter[str]())

    kinds, stored = total(history.kinds), total(history.stored)
    waits = [wait for wait in history.waits if wait.who["stream"] - 1 in numbers]
    hows = Counter(wait.how for wait in waits)
    return {
        "events": {kind: kinds[kind] for kind in KINDS},
        "flushes": sum(s.ordered for s in streams),
        "commands": dict(total(history.commands)),
        "failed": {error: sum(s.errors[at] for s in streams)
                   for at, error in enumerate(("0501", "0502", "0505"))},
        "texels": sum(history.texels[number] for number in numbers),
        "bytes": {store: stored[store] for store in ("buckets", "buffers", "results")},
        "words": sum(s.fetched for s in streams),
        "waits": {"made": len(waits), "kept": len(waits) - hows["dropped"],
                  "dropped": hows["dropped"], **{how: hows[how] for how in HOWS}},
        "lengths": lengths(waits),
    }


def counted(script: Reader, output: bytes) -> Counting:
    """The history of the journal of an output, with its numbers."""
    history = Counting(script)
    lines = output.decode("latin-1").split("\n")[len(model.head(history)):-1]
    for line in lines[:journal_end(lines)]:
        history.take(line)
    return history


def stats(script: Reader, output: bytes) -> Record:
    """All numbers of an output, of the streams together and of each."""
    history = counted(script, output)
    numbers = range(len(history.streams))
    streams = [{"stream": number + 1, **record_of(history, [number])} for number in numbers]
    return {"all_fences": True, "all": record_of(history, numbers), "streams": streams}
