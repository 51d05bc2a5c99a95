"""A history as one HTML file that needs no network: the parts of `pages`, and data.

All facts come from the replay of the journal. The page looks up what it shows: it replays nothing,
and sets texels only where a difference says so.
"""

import base64
import json
from collections.abc import Iterable, Sequence

from zorvleid.output import Event, Output, OutputRefused, StreamEnd

from . import commands, files, log
from .history import History
from .plain import counted
from .races import Races
from .script import Script
from .standing import Stand, Standing
from .trace import ending_of, name_of_stream
from .waits import Wait
from .working import Deed

TEXEL_BYTES_AT_MOST = 48 << 20  # as text in the page they are 64 MiB
SCRIPTS = ("data.js", "races.js", "chart.js", "images.js", "words.js", "moving.js")
# commands that change a noted value
CHANGING = ("SetToken", "InsertFence", "SetBucketSize", "CreateBuffer", "DeleteBuffer")
NAMING = ("image", "source", "target")  # the arguments that name images
RELEASING = ("release",)


class Recorder:
    """The facts of a replay: the places of get, the changes of a stream, the writes to images."""

    def __init__(self, texel_bytes_at_most: int = TEXEL_BYTES_AT_MOST) -> None:
        self.gets: list[int] = []
        self.changes: dict[tuple[int, str], tuple[list[int], list[int]]] = {}
        # event, image, x, y, w, h, and where its texels are: their first byte and how many
        self.writes: list[list[int]] = []
        self.texels = bytearray()
        self.at_most = texel_bytes_at_most
        self.left_out: list[int] = []  # the events whose texels there is no room for

    def __call__(self, event: Event, deed: Deed, standing: Standing) -> None:
        stand = standing.streams[event.stream - 1]
        place = len(self.gets)
        self.gets.append(stand.get)
        if deed.command is not None and deed.command.name in CHANGING:
            self.note(event.stream, stand, place)
        if (written := standing.written) is not None:
            data = written.texels if written.w * written.h else b""
            at = len(self.texels)
            if at + len(data) > self.at_most:
                self.left_out.append(place)
                at, data = -1, b""
            self.texels += data
            kind = ("wrote", "made", "gone").index(written.kind)
            self.writes.append([place, written.image, written.x, written.y, written.w, written.h,
                                at, len(data), kind])

    def note(self, stream: int, stand: Stand, place: int) -> None:
        self.change(stream, "release", stand.release, place)
        if stand.token is not None:
            self.change(stream, "token", stand.last_token, place)
        for sort, things in (("bucket", stand.buckets), ("buffer", stand.buffers)):
            for number, thing in things.items():
                self.change(stream, f"{sort} {number}", len(thing), place)
            for key in [key for of, key in self.changes if of == stream and key.startswith(sort)]:
                if int(key.removeprefix(sort)) not in things:
                    self.change(stream, key, -1, place)

    def change(self, stream: int, key: str, value: int, place: int) -> None:
        """Keeps a changed value; each is 0 or missing at the beginning."""
        places, values = self.changes.setdefault((stream, key), ([], []))
        if (values[-1] if values else 0 if key == "release" else None) != value:
            places.append(place)
            values.append(value)


def end_of(stream: StreamEnd) -> str:
    """How a stream ended, with the name of its error."""
    code = stream.end.removeprefix("lost ")
    return f"{stream.end} ({commands.ERRORS[code]})" if code in commands.ERRORS else stream.end


def marked(history: History) -> dict[str, list[int]]:
    """The events of each mark."""
    found: dict[str, list[int]] = {"failed": [], "dropped": [], "lost": []}
    for place, deed in enumerate(history.deeds):
        if deed.mark:
            found[deed.mark].append(place)
    return found


def summary(history: History) -> str:
    closed = sum(lane.gone is not None and lane.gone.kind == "close" for lane in history.lanes)
    parts = [counted(len(history.lanes), "stream"), counted(len(history.bars), "order number"),
             counted(len(history.output.events), "event"),
             counted(len(history.waits), "wait") + " that ended"]
    parts += [counted(closed, "stream") + " closed"] if closed else []
    return ", ".join(parts)


def naming(history: History, fields: Sequence[str]) -> dict[int, list[int]]:
    """By the value of some arguments, as the number of an image, the events that have it."""
    found: dict[int, list[int]] = {}
    fields_of = {number: [field for field, _ in known if field in fields]
                 for number, known in commands.FIELDS.items()}
    for place, deed in enumerate(history.deeds):
        if deed.command is not None and (named := fields_of.get(deed.command.id)):
            told = deed.command.values
            values = [told[field] for field in named if field in told]
            for value in values if len(values) == 1 else set(values):
                found.setdefault(value, []).append(place)
    return found


def copies(history: History) -> list[list[int]]:
    """The copies of texels: the event, the image that is read, and the first texel there."""
    return [[place, told["source"], told["x"], told["y"]]
            for place, deed in enumerate(history.deeds)
            if deed.command is not None and deed.command.name == "CopyRect"
            for told in (deed.command.values, )]


def wait_of(wait: Wait, total: int) -> list[object]:
    """The facts of a wait. One that is pending where the output ends, ends after its events."""
    text = wait.mark.text if wait.mark else wait.why
    ended = wait.ended if wait.ended >= 0 else total
    return [wait.stream - 1, wait.number, wait.target, str(wait.release), wait.by, wait.made,
            ended, wait.how, wait.lets, text]


def table(values: Iterable[str]) -> tuple[list[str], list[int]]:
    """Texts that come often: each once, and which of them comes where."""
    places: dict[str, int] = {}
    which = [places.setdefault(value, len(places)) for value in values]
    return list(places), which


def raced(output: Output, script: Script | None) -> list[list[object]]:
    """The races of a whole run whose script is known: both steps, and the sentence."""
    try:
        found = Races(output, script).races if script is not None else []
    except OutputRefused:  # the run is not whole
        return []
    return [[finding.facts["first"]["event"] - 1, finding.facts["second"]["event"] - 1,
             finding.text] for finding in found if finding.kind == "race"]


def data(
    history: History, recorder: Recorder, script: Script | None = None
) -> dict[str, object]:
    """The data of the page. Places in the journal count from 0 here."""
    output = history.output
    names, name_of = table(deed.command.name if deed.command else event.kind
                           for event, deed in zip(output.events, history.deeds))
    hows, how_of = table(ending_of(bar) for bar in history.bars)
    return {
        "streams": [{"name": name_of_stream(output, stream.number), "end": end_of(stream),
                     "rows": lane.rows}
                    for stream, lane in zip(output.streams, history.lanes)],
        "line": output.events[0].line if output.events else 0,
        "texts": [event.text for event in output.events],
        "notes": [log.what(history, place) for place in range(len(output.events))],
        "names": names, "nameOf": name_of,
        "streamOf": [event.stream - 1 for event in output.events],
        "kinds": "".join(event.kind[0] for event in output.events),
        "barOf": [bar.number - 1 if bar else -1 for bar in history.bar_of],
        "hows": hows,
        "bars": [[bar.stream - 1, bar.begin, -1 if bar.first is None else bar.first, bar.end, how,
                  bar.row, -1 if bar.put is None else bar.put, bar.pauses]
                 for bar, how in zip(history.bars, how_of)],
        "waits": [wait_of(wait, len(output.events)) for wait in history.standing.waits.all],
        "marks": marked(history),
        "gets": recorder.gets,
        "changes": [[stream - 1, key, *kept] for (stream, key), kept in recorder.changes.items()],
        "writes": recorder.writes, "copies": copies(history),
        "named": naming(history, NAMING), "released": naming(history, RELEASING),
        "leftOut": (recorder.left_out[:1] + recorder.left_out[-1:] + [len(recorder.left_out)]
                    if recorder.left_out else []),
        "races": raced(output, script),
        "remarks": history.notes,
    }


def as_script(value: object) -> str:
    """A value as JSON that can stand inside of a script element."""
    return json.dumps(value, separators=(",", ":")).replace("<", "\\u003c")


def filled(page: str, parts: dict[str, str]) -> str:
    """A page with its parts put in, each once and none within another."""
    pieces = page.split("{{")
    told = [pieces[0]]
    for piece in pieces[1:]:
        name, _, rest = piece.partition("}}")
        told += [parts[name], rest]
    return "".join(told)


def text(
    output: Output, script: Script | None = None, texel_bytes_at_most: int = TEXEL_BYTES_AT_MOST
) -> str:
    recorder = Recorder(texel_bytes_at_most)
    return text_of(History(output, script, recorder), recorder, script)


def text_of(history: History, recorder: Recorder, script: Script | None = None) -> str:
    return filled(files.part_of_page("timeline.html"), {
        "style": files.part_of_page("timeline.css"),
        "script": "\n".join(map(files.part_of_page, SCRIPTS)),
        "summary": summary(history),
        "data": as_script(data(history, recorder, script)),
        "texels": base64.b64encode(recorder.texels).decode(),
    })
