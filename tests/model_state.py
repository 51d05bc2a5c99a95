"""How things stand after an event, a second time: for `zorvleid state` and `zorvleid who`.

`Painted` judges a journal as model_history.py does. `record(history)` is what `state --json` must
say of it then, and `made(history, ..)` which commands made a texel.
"""

from typing import Any

from tests import model_run
from tests.model_run import BYTES_OF_FORMAT, Stream
from tests.model_script import Reader
from tests.model_stats import DRAWING, NAMES, Counting

# The event, the command, the texel that it set, its bytes in an upload, and the maker of the source
Maker = tuple[int, str, tuple[int, int, int], tuple[int, int] | None, Any]
Record = dict[str, Any]
TEXEL = ("image", "x", "y")


class Painted(Counting):
    """A history that keeps of each texel who made it."""

    def __init__(self, script: Reader) -> None:
        super().__init__(script)
        self.created: dict[int, int] = {}  # the event that made an image
        self.makers: dict[int, dict[tuple[int, int], Maker]] = {}

    def draw(self, s: Stream, command: int, a: list[int], data: bytes) -> int | None:
        error = super().draw(s, command, a, data)
        if error is None:
            self.paint(command, a)
        return error

    def paint(self, command: int, a: list[int]) -> None:
        """Notes the maker of each texel that a command set."""
        if command in (model_run.CREATE, model_run.DELETE):
            self.created[a[0]], self.makers[a[0]] = self.at, {}
            return
        image = a[3] if command == model_run.COPY else a[0]
        x, y, width, height = a[4:8] if command == model_run.COPY else a[1:5]
        assert command in DRAWING
        made = {}
        for across in range(width):
            for down in range(height):
                here, source, span = (x + across, y + down), None, None
                if command == model_run.COPY:
                    source = self.maker(a[0], a[1] + across, a[2] + down)
                elif command != model_run.CLEAR:
                    size, first = BYTES_OF_FORMAT[a[5]], a[7] if len(a) == 8 else 0
                    span = (first + size * (down * width + across), size)
                made[here] = (self.at, NAMES[command], (image, *here), span, source)
        self.makers[image].update(made)

    def maker(self, image: int, x: int, y: int) -> Maker:
        """Who made a texel as it is now."""
        new = (self.created[image], "CreateImage", (image, x, y), None, None)
        return self.makers[image].get((x, y), new)


def made(history: Painted, image: int, x: int, y: int) -> list[Record]:
    """The commands that made a texel, the last one first, as `who --json` has them."""
    found, maker = [], history.maker(image, x, y)
    while maker:
        event, command, texel, span, source = maker
        found.append({
            "event": event, "command": command, "texel": dict(zip(TEXEL, texel)),
            "source": dict(zip(TEXEL, source[2])) if source else None,
            "bytes": {"first": span[0], "count": span[1]} if span else None,
        })
        maker = source
    return found


def record(history: Painted) -> Record:
    """How things stand, but for the number of all events."""
    streams = []
    for number, s in enumerate(history.streams, 1):
        streams.append({
            "stream": number, "namespace": s.plan.name[0], "id": s.plan.name[1], "end": s.gone,
            "orders": [order for order, _ in s.left], "flushes": s.ordered, "finished": s.finished,
            "get": s.entries % s.plan.ring, "release": s.release, "token": s.token,
            "entries": s.entries, "words": s.fetched,
            "errors": dict(zip(("0501", "0502", "0505"), s.errors)),
            "buckets": [{"bucket": key, "bytes": len(s.buckets[key])} for key in sorted(s.buckets)],
            "buffers": [{"buffer": key, "bytes": len(s.buffers[key])} for key in sorted(s.buffers)],
        })
    waits = sorted(history.kept.items(), key=lambda item: item[0][1:])
    sizes = sorted((-width * height, number, width, height)
                   for number, (width, height, _) in history.images.items())
    return {
        "event": len(history.events), "streams": streams,
        "waits": [{**wait.who, "by": wait.by, "made": wait.made} for _, wait in waits],
        "images": [{"image": number, "width": width, "height": height}
                   for _, number, width, height in sizes],
    }
