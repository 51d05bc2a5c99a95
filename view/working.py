"""The work of the commands of a journal, done and described in words."""

from collections.abc import Iterable, Sequence
from functools import lru_cache
from operator import itemgetter
from typing import TYPE_CHECKING, NamedTuple

from zorvleid.output import Event

from . import commands, faults
from .images import Failed, Written, texels_of
from .plain import counted, joined
from .table import TABLE

if TYPE_CHECKING:
    from .standing import Stand, Standing
    from .waits import Wait


class Deed(NamedTuple):
    """The work of one event."""

    text: str = ""
    mark: str = ""  # `failed`, `dropped` or `lost`, where it is one of these
    error: str = ""  # of a failed image command, or the name of that of a loss
    command: commands.Command | None = None  # of a step or a loss
    waits: "tuple[Wait, ...]" = ()  # that it made, kept or dropped
    ended: "tuple[Wait, ...]" = ()


class Step(NamedTuple):
    """The words of a step, and what follows from them wherever they come."""

    place: int
    values: list[int]
    command: commands.Command
    given: list[int]  # the entries of data after four entries
    data: bytes  # the words of a memory
    has_store: bool  # whether it works on a bucket or a buffer
    wrong: Deed | None  # where the words are no whole command, or fail a check by themselves


SHORT, KNOWN = 256, 8192  # so many short texts are kept, since the same ones come again
HOW = {"release": "by a release", "guard": "by a guard", "closed": "by a close"}


def steps(count: int) -> str:
    return counted(count, "step")


def endings(ended: "Iterable[Wait]") -> str:
    """The waits that an event ended, after its other work."""
    return "".join(
        f"; ends the wait of number {wait.number} of {wait.caller} {HOW[wait.how]}"
        for wait in ended)


def gone_waits(gone: "Sequence[Wait]") -> str:
    return (
        f"; {counted(len(gone), 'wait')} of the stream {'is' if len(gone) == 1 else 'are'} "
        "gone" if gone else ""
    )


def dropped_numbers(left: list[int]) -> str:
    if not left:
        return ""
    return (
        f"; number {left[0]} ends here" if len(left) == 1 else f"; numbers {joined(left)} end here"
    )


def parsed(words: str) -> Step:
    """A step of its words as they are printed."""
    place, values, command = commands.parse(words)
    size = commands.entries_wanted(command.id, command.size)
    data = b"".join([value.to_bytes(4, "little") for value in values[size:]])
    wrong = None
    if command.id not in TABLE or command.size < TABLE[command.id][1] or len(values) < size:
        wrong = Deed(
            "these words are no whole command, and nothing is done", "failed", "no command", command
        )
    elif (fault := faults.fault_of_arguments(command)) is not None:
        wrong = wrong_deed(command, fault)
    has_store = "bucket" in command.values or "buffer" in command.values
    return Step(place, values, command, values[4:size], data, has_store, wrong)


parsed_short = lru_cache(KNOWN)(parsed)


def wrong_deed(command: commands.Command, fault: faults.Fault) -> Deed:
    why = f"these words fail check {fault.check}, and nothing is done: {fault.why}"
    return Deed(why, "failed", f"check {fault.check}", command)


def execute(standing: "Standing", event: Event, words: str, stand: "Stand") -> Deed:
    """Does what a step does. Words that are no whole command do nothing."""
    place, values, command, given, data, has_store, wrong = (
        parsed_short(words) if len(words) <= SHORT else parsed(words))
    stand.at = place + command.size
    stand.entries += command.size
    stand.fetched += len(values)
    if wrong is not None:
        return wrong
    if has_store and (fault := faults.fault_of_store(command, stand)) is not None:
        return wrong_deed(command, fault)
    if command.name in IMAGE_COMMANDS:
        return draw(standing, command, stand, data)
    match command.name:
        case "Noop":
            return Deed("passes over them", command=command)
        case "SetToken":
            return Deed(set_token(command, stand), command=command)
        case "InsertFence":
            return release(standing, event, command, stand)
        case "WaitToken" | "WaitSyncToken":
            return wait(standing, event, command, stand)
    return Deed(keep(command, stand, given, data), command=command)


def set_token(command: commands.Command, stand: "Stand") -> str:
    token = command.values["token"]
    before = f" after {stand.last_token}" if stand.token is not None else ""
    stand.last_token = token
    stand.token = token if stand.token is None else max(stand.token, token)
    return f"the token is {token}{before}"


def release(standing: "Standing", event: Event, command: commands.Command, stand: "Stand") -> Deed:
    before, stand.release = stand.release, max(stand.release, command.values["release"])
    ended = standing.waits.settle(event.stream)
    done = f"the release count stays {before}"
    if before < stand.release:
        done = f"the release count rises from {before} to {stand.release}"
    return Deed(done + endings(ended), command=command, ended=ended)


def wait(standing: "Standing", event: Event, command: commands.Command, stand: "Stand") -> Deed:
    told = command.values
    name = (told["namespace"], told["id"]) if "id" in told else None
    target = standing.number_of(name or told["stream"])
    made = standing.waits.make(
        event.stream, stand.open[0].number, target, told["release"], command.name, name
    )
    if made.how == "dropped":
        return Deed(f"dropped: {made.why}", "dropped", "", command, (made,))
    waited = standing.stream(target)
    return Deed(f"waits for {made}, which has come to {waited.release if waited else 0}", "", "",
                command, (made,))


# --- Images ---

IMAGE_COMMANDS = {"CreateImage", "DeleteImage", "ClearRect", "CopyRect", "UploadRect",
                  "UploadBucket", "UploadBuffer"}
RECTANGLE = itemgetter("image", "x", "y", "w", "h")
COPIED = itemgetter("source", "x", "y", "target", "x2", "y2", "w", "h")


def draw(standing: "Standing", command: commands.Command, stand: "Stand", data: bytes) -> Deed:
    """The commands on images. What cannot be done changes nothing, and is counted."""
    try:
        standing.written = written = written_by(standing, command, stand, data)
    except Failed as failed:
        stand.errors[failed.error] += 1
        return Deed(f"failed, {failed.error}: {failed.why}", "failed", failed.error, command)
    return Deed(drawn(command, written), command=command)


def written_by(
    standing: "Standing", command: commands.Command, stand: "Stand", data: bytes
) -> Written:
    told, images = command.values, standing.images
    if command.name == "CreateImage":
        return images.create(told["image"], told["width"], told["height"])
    if command.name == "DeleteImage":
        return images.delete(told["image"])
    if command.name == "CopyRect":
        return images.copy(*COPIED(told))
    image, x, y, w, h = RECTANGLE(told)
    images.inside(image, x, y, w, h)
    if command.name == "ClearRect":
        return images.write(image, x, y, w, h, told["texel"].to_bytes(4, "big"))
    return images.write(
        image, x, y, w, h, texels_of(told["format"], uploaded(command, stand, data))
    )


def uploaded(command: commands.Command, stand: "Stand", data: bytes) -> bytes:
    """The bytes that an upload takes; zeros where a journal that is not legal has too few."""
    told = command.values
    size = faults.size_wanted(command)
    if command.name == "UploadRect":
        found = data[told["memory_offset"] % 4:]
    elif command.name == "UploadBucket":
        found = bytes(stand.buckets[told["bucket"]])
    else:
        found = bytes(stand.buffers[told["buffer"]][told["offset"]:])
    return found[:size].ljust(size, b"\0")


def drawn(command: commands.Command, written: Written) -> str:
    many = counted(written.w * written.h, "texel")
    match command.name:
        case "CreateImage":
            return f"image {written.image} is made, {written.w} by {written.h}"
        case "DeleteImage":
            return f"image {written.image} is gone"
        case "CopyRect":
            return f"copies {many} to image {written.image}"
        case "ClearRect":
            return f"sets {many} of image {written.image}"
        case _:
            return f"uploads {many} to image {written.image}"


# --- Buckets and buffers ---


def store(thing: bytearray, offset: int, data: bytes) -> None:
    thing[offset:offset + len(data)] = data


def keep(command: commands.Command, stand: "Stand", given: list[int], data: bytes) -> str:
    """The commands on buckets and buffers, with the entries of data that were given."""
    told = command.values
    match command.name:
        case "SetBucketSize":
            bucket, size = told["bucket"], told["size"]
            if len(stand.buckets.get(bucket, b"x" * (size + 1))) == size:
                return f"bucket {bucket} has {counted(size, 'byte')} already, and keeps them"
            stand.buckets[bucket] = bytearray(size)
            return f"bucket {bucket} has {counted(size, 'byte')} of 0"
        case "SetBucketData":
            store(stand.buckets[told["bucket"]], told["offset"],
                  data[told["memory_offset"] % 4:][:told["size"]])
            return f"writes {counted(told['size'], 'byte')} into bucket {told['bucket']}"
        case "SetBucketDataImmediate":
            immediate = b"".join(value.to_bytes(4, "little") for value in given)
            store(stand.buckets[told["bucket"]], told["offset"], immediate[:told["size"]])
            return f"writes {counted(told['size'], 'byte')} into bucket {told['bucket']}"
        case "CreateBuffer":
            stand.buffers[told["buffer"]] = bytearray(told["size"])
            return f"buffer {told['buffer']} is made, of {counted(told['size'], 'byte')}"
        case "DeleteBuffer":
            del stand.buffers[told["buffer"]]
            return f"buffer {told['buffer']} is gone"
        case "BufferData":
            store(stand.buffers[told["buffer"]], told["offset"],
                  data[told["memory_offset"] % 4:][:told["size"]])
            return f"writes {counted(told['size'], 'byte')} into buffer {told['buffer']}"
        case _:
            return read_back(command, stand)


def tell(stand: "Stand", memory: int, offset: int, data: bytes) -> None:
    """Writes bytes to result places, where these are known; the last word is filled with zeros."""
    if stand.plan is None or memory not in stand.plan.results:
        return
    first = stand.plan.results[memory][0] + offset // 4
    for at in range(0, len(data), 4):
        stand.told[first + at // 4] = int.from_bytes(data[at:at + 4], "little")


def read_back(command: commands.Command, stand: "Stand") -> str:
    """GetBucketStart and GetBucketData, which write result memories."""
    told = command.values
    bucket = bytes(stand.buckets[told["bucket"]])
    if command.name == "GetBucketData":
        tell(stand, told["memory"], told["memory_offset"], bucket[told["offset"]:][:told["size"]])
        return (
            f"writes {counted(told['size'], 'byte')} of bucket {told['bucket']} to result memory "
            f"{told['memory']}"
        )
    size = len(bucket)
    tell(stand, told["result_memory"], told["result_offset"], size.to_bytes(4, "little"))
    data = ""
    if told["data_size"]:
        tell(stand, told["data_memory"], told["data_offset"], bucket[:told["data_size"]])
        data = (
            f" and {counted(min(size, told['data_size']), 'byte')} to result memory "
            f"{told['data_memory']}"
        )
    return (
        f"writes the size of bucket {told['bucket']}, {size}, to result memory "
        f"{told['result_memory']}{data}"
    )
