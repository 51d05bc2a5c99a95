"""Outputs whose end is missing, as a service leaves that died, or that writes a journal alone.

Such an output is completed by the replay of its journal: its streams as far as they are known, and
its images as they stand after the last event.
"""

from collections.abc import Sequence
from dataclasses import replace

from zorvleid.output import Image, Output, StreamEnd
from zorvleid.script import STREAMS_AT_MOST, Name

from .history import images_of, standing_after
from .script import Script
from .standing import Stand
from .whole import end_of

NOT_TOLD = "not told"  # how a stream ended


def names_of(output: Output) -> list[Name]:
    """The names of the streams of an output, as far as it names or uses them."""
    seen = (event.stream for event in output.events if event.stream <= STREAMS_AT_MOST)
    count = max(len(output.streams), max(seen, default=0))
    return output.names or [(0, number) for number in range(1, count + 1)]


def end_of_stream(number: int, stand: Stand) -> StreamEnd:
    """The line of a stream as it would be after the last event."""
    errors = stand.errors
    end = end_of(stand) if stand.gone is not None else NOT_TOLD
    return StreamEnd(number, end, stand.entries, stand.release, stand.last_token, stand.fetched,
                     (errors["0501"], errors["0502"], errors["0505"]), 0)


def completed(output: Output, script: Script | None = None, names: Sequence[Name] = ()) -> Output:
    """An output with streams and images, where its end is missing.

    The streams are those that it names or uses, or those of its script, or those of these names.
    """
    own = names_of(output)
    is_last = not (output.marks or output.dumps or output.views)
    lacks = len(own) > len(output.streams) or not own and script is not None and script.plans
    if output.is_verdict or not (output.is_cut or output.may_end and is_last and lacks):
        return output
    wanted = list(script.names if script is not None else names)
    known = wanted if wanted[:len(own)] == own else own
    none = [StreamEnd(number, NOT_TOLD, 0, 0, 0, 0, (0, 0, 0), 0)
            for number in range(1, len(known) + 1)]
    shell = replace(output, streams=none, names=known if output.version == 2 else [])
    standing = standing_after(shell, len(output.events), script)
    ends = [end_of_stream(number, stand) for number, stand in enumerate(standing.streams, 1)]
    told = output.streams
    images: list[Image] = images_of(standing)
    return replace(shell, streams=[*told, *ends[len(told):]], images=images, is_cut=True)
