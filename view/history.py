"""The facts of an output as a whole: what each event did, its number, and the waits that it ended.

Each order number is a bar, from its order to its finish, its loss or the close of its stream. Bars
of one stream may overlap, since a client may flush again before the service has finished. So each
has a row, the first free one.
"""

from bisect import bisect_right
from collections.abc import Callable, Iterable
from dataclasses import replace

from zorvleid.output import Event, Image, Output, OutputRefused, StreamEnd

from .images import Picture
from .plain import counted
from .script import Script
from .sources import NoScript
from .standing import Bar, Stand, Standing
from .waits import Wait
from .working import Deed

BASE = 1000
ENDINGS = {"release": 0, "guard": 1, "closed": 2}
CODES = {"done": "", "closed": "close", "lost memory": "memory"}
ENDS_HERE = "the output ends here"
COUNTS = ("entries", "release", "token", "words", "error 0501", "error 0502", "error 0505")


def rings(output: Output) -> list[int | None]:
    """The ring of each stream, where its steps went round it."""
    found: list[int | None] = [None] * len(output.streams)
    firsts = {number: f"step {number} 0:" for number in range(1, len(found) + 1)}
    before: dict[int, Event] = {}
    for event in output.events:
        if event.kind != "step" or event.stream not in firsts:
            continue
        if event.text.startswith(firsts[event.stream]) and event.stream in before:
            place, _, rest = before[event.stream].words[1:].partition(":")
            end = int(place or 0) + int(rest[:8] or "0", 16) % 2**21
            found[event.stream - 1] = end or found[event.stream - 1]
        before[event.stream] = event
    return found


def names_of(output: Output) -> list[tuple[int, int]]:
    return output.names or [(0, stream.number) for stream in output.streams]


def need_script_of(output: Output, script: Script) -> None:
    """Refuses a script that has other streams than an output."""
    if script.names != names_of(output):
        raise NoScript(
            "refused: the script is of another run: its streams are not those of the output"
        )


def standing_of(output: Output, script: Script | None = None) -> Standing:
    """How things stand before the first event of an output."""
    names = names_of(output)
    if script is None:
        return Standing([Stand(None, ring) for ring in rings(output)], names, output.marks)
    need_script_of(output, script)
    return Standing([Stand(plan) for plan in script.plans], names)


def standing_after(
    output: Output, count: int, script: Script | None = None,
    watch: Callable[[Event, Bar | None, Deed, Standing], None] | None = None,
) -> Standing:
    """How things stand after `count` events. `watch` is called after each of them."""
    standing = standing_of(output, script)
    for event in output.events[:count]:
        bar, deed = standing.take(event)
        if watch is not None:
            watch(event, bar, deed, standing)
    return standing


def images_after(output: Output, count: int) -> list[Image]:
    """The images after `count` events."""
    return images_of(standing_after(output, count))


def images_of(standing: Standing) -> list[Image]:
    """The images as they stand."""
    return [Image(number, picture.width, picture.height, bytes(picture.texels))
            for number, picture in sorted(standing.images.pictures.items())]


class History:
    """The bars, the waits, what each event did, and the bar of each event or None.

    `watch` is called after each event, with what it did and the state then.
    """

    def __init__(self, output: Output, script: Script | None = None,
                 watch: Callable[[Event, Deed, Standing], None] | None = None) -> None:
        self.output = output
        self.standing = standing_of(output, script)
        self.bar_of: list[Bar | None] = []
        self.deeds: list[Deed] = []
        for event in output.events:
            bar, deed = self.standing.take(event)
            self.bar_of.append(bar)
            self.deeds.append(deed)
            if watch is not None:
                watch(event, deed, self.standing)
        if output.is_cut:
            self.cut_bars()
        else:
            for stream, stand in zip(output.streams, self.standing.streams):
                check_end(stream, stand)
        self.waits = self.match_marks()
        self.notes = [ENDS_HERE] if self.output.is_cut else list(differences(self))

    @property
    def lanes(self) -> list[Stand]:
        return self.standing.streams

    @property
    def bars(self) -> list[Bar]:
        return self.standing.bars

    def cut_bars(self) -> None:
        """Ends the bars that are open where the output ends: after its last event."""
        for bar in (bar for stand in self.lanes for bar in stand.open):
            bar.end, bar.how = len(self.output.events), "cut"

    def match_marks(self) -> list[Wait]:
        """The waits that ended, each with its mark; OutputRefused for other marks."""
        ended = self.standing.waits.ended
        for mark, wait in zip(self.output.marks, ended):
            if (mark.stream, mark.number, mark.target, mark.release, mark.how) != \
                    (wait.stream, wait.number, wait.target, wait.release, wait.how):
                raise OutputRefused(mark.line, "no event ends such a wait here")
            if mark.value != (BASE + 4 * mark.number + ENDINGS[mark.how]) % 2**32:
                raise OutputRefused(mark.line, "the mark is not that of the wait")
            wait.mark, wait.lets = mark, self.lets(wait)
        if len(self.output.marks) > len(ended):
            raise OutputRefused(self.output.marks[len(ended)].line, "no event ends such a wait")
        if unmarked := ended[len(self.output.marks):]:
            if not self.output.may_end or self.output.dumps or self.output.views:
                raise OutputRefused(self.output.events[unmarked[0].made].line,
                                    "a wait of this event ended without a mark")
            self.output = replace(self.output, is_cut=True)
            for wait in unmarked:
                wait.lets = self.lets(wait)
        return ended

    def lets(self, wait: Wait) -> int:
        """The first event of the waiter that could come once the wait had ended, or -1."""
        bar = self.bars[wait.number - 1]
        later = bisect_right(bar.steps, wait.ended)
        lets = bar.steps[later] if later < len(bar.steps) else bar.end
        if later:
            bar.pauses.append((bar.steps[later - 1], lets))
        return lets if lets < len(self.output.events) else -1

    def waits_made(self, place: int) -> list[Wait]:
        """The waits that an event made, kept or dropped."""
        return [wait for wait in self.deeds[place].waits if wait.made == place]

    def text(self, place: int) -> str:
        """The work of an event, in words."""
        event, deed = self.output.events[place], self.deeds[place]
        if event.kind != "order":
            return deed.text
        bar = self.bar_of[place]
        parts = [f"drawn for the flush after {counted(event.actions, 'action')}"]
        if bar is not None and bar.put is not None:
            parts.append(f"up to PUT {bar.put}")
        waits = self.waits_made(place)
        parts += [f"waits for {wait}" for wait in waits if wait.how != "dropped"]
        parts += [
            f"the fence on {wait} is dropped: {wait.why}" for wait in waits if wait.how == "dropped"
        ]
        return "; ".join(parts).replace("; up to", ", up to", 1)


def check_end(stream: StreamEnd, stand: Stand) -> None:
    wanted = CODES[stream.end] if stream.end in CODES else stream.end.partition(" ")[2]
    if (stand.gone and (stand.gone.code or "close") or "") != wanted:
        raise OutputRefused(stream.line, "the journal tells another end of the stream")
    if stand.open:
        raise OutputRefused(
            stream.line, f"the number {stand.open[0].number} of the stream is not finished"
        )


# --- What the journal does not give ---


def differences(history: History) -> Iterable[str]:
    """Where the images and the counts that are printed are not those that the replay gives."""
    replayed = history.standing.images.pictures
    printed = {image.number: image for image in history.output.images}
    for number in sorted(printed.keys() | replayed.keys()):
        if not is_same(printed.get(number), replayed.get(number)):
            yield f"image {number} of the output is not the one that its journal gives"
    for stream, stand in zip(history.output.streams, history.lanes):
        counts = (stand.entries, stand.release, stand.last_token, stand.fetched,
                  *stand.errors.values())
        for name, told, found in zip(COUNTS, stream.counts, counts):
            if told != found:
                yield (
                    f"line {stream.line} of the output has {name} {told}, and its journal gives "
                    f"{found}"
                )


def is_same(image: Image | None, picture: Picture | None) -> bool:
    return (
        image is not None
        and picture is not None
        and image[1:] == (picture.width, picture.height, bytes(picture.texels))
    )
