"""Why a stream was lost: the check of docs/FORMATS.md that its words fail, and the failing word.

The error of the loss decides which checks come into question. An output has neither PUT nor the
sizes of memories. They are named where the script is at hand.
"""

from collections.abc import Iterator
from typing import TYPE_CHECKING, NamedTuple

from . import commands
from .plain import counted
from .table import BYTES_OF_FORMAT, TABLE

if TYPE_CHECKING:
    from .standing import Stand

WORDS_AT_MOST = 1_048_576
BYTES_AT_MOST = 262_144
NUMBER_AT_MOST = 15
MEMORY_BYTES_AT_MOST = 4 * 65_536
ERROR_OF_CHECK = {1: "1", 2: "2", 3: "3", 4: "4", 5: "6", 6: "4", 7: "4", 8: "4", 9: "2", 10: "6",
                  11: "4", 12: "4"}


CHECKED = {"format", "bucket", "buffer"}  # the arguments of commands that checks 6 to 8 may fail


class Fault(NamedTuple):
    """A failed check, its cause, and the words that may be at fault, by their places in the event.

    No word stands for the whole command.
    """

    check: int
    why: str
    words: tuple[int, ...] = ()


Words = list[tuple[int, int]]


def header_faults(header: int, room: int | None) -> Iterator[tuple[int, str]]:
    """The checks of 1 to 4 that a header fails, in their order, and why.

    The room is None where it is not known. Then the header may fail check 2.
    """
    size, number = header % 2**21, header // 2**21
    if size == 0:
        yield 1, "the size is 0"
    elif room is None:
        yield 2, f"the size is {size}, and there is not so much room"
    elif size > room:
        yield 2, f"the size is {size}, and there is room for {room}"
    if number not in TABLE:
        yield 3, f"no command has the id {number}"
        return
    name, least, fields = TABLE[number]
    if size < least or (size > least and "+" not in fields):
        more = " or more" if "+" in fields else ""
        yield 4, f"{name} has {least} entries{more}, and the size is {size}"


def fault_of_header(words: Words, code: str, stand: "Stand") -> Fault | None:
    """The check of 1 to 5 that fails with an error: the header alone was fetched."""
    header = words[0][1]
    size = header % 2**21
    wanted = commands.entries_wanted(header // 2**21, size)
    if code == "6" and stand.fetched + wanted > WORDS_AT_MOST:
        return Fault(5,
                     f"{counted(wanted, 'word')} more than the {stand.fetched:,} of the stream are "
                     f"past {WORDS_AT_MOST:,}", (0,))
    found = (Fault(check, why, (0,)) for check, why in header_faults(header, stand.room))
    return next((fault for fault in found if ERROR_OF_CHECK[fault.check] == code), None)


def store_of(command: commands.Command, stand: "Stand") -> tuple[str, dict[int, bytearray]] | None:
    """The sort of thing that a command works on, and those of the stream."""
    if "bucket" in command.values:
        return "bucket", stand.buckets
    return ("buffer", stand.buffers) if "buffer" in command.values else None


def fault_of_arguments(command: commands.Command) -> Fault | None:
    """Checks 6 to 8, which look at the arguments alone."""
    told = command.values
    if CHECKED.isdisjoint(told):
        return None

    def at(field: str) -> tuple[int]:
        return (commands.place_of(command, field),)

    if "format" in told and told["format"] not in BYTES_OF_FORMAT:
        return Fault(6, f"no format has the number {told['format']}", at("format"))
    for sort in ("bucket", "buffer"):
        if told.get(sort, 0) > NUMBER_AT_MOST:
            return Fault(7, f"{sort} {told[sort]} is above {NUMBER_AT_MOST}", at(sort))
    if command.name in ("SetBucketSize", "CreateBuffer") and told["size"] > BYTES_AT_MOST:
        return Fault(7, f"{told['size']:,} bytes are more than {BYTES_AT_MOST:,}", at("size"))
    if command.name == "SetBucketDataImmediate" and told["size"] > 4 * command.data:
        return Fault(8,
                     f"the data has {counted(4 * command.data, 'byte')}, and the size is "
                     f"{told['size']}", at("size"))
    for span in results_of(command):
        if told[span.offset] % 4:
            why = f"the offset {told[span.offset]} is not a multiple of 4"
            return Fault(8, why, at(span.offset))
    return None


def size_wanted(command: commands.Command) -> int:
    """How many bytes a command reads of a memory, a bucket or a buffer."""
    told = command.values
    if "format" in told:
        return told["w"] * told["h"] * BYTES_OF_FORMAT.get(told["format"], 0)
    return told.get("size", 0)


class Span(NamedTuple):
    """A range of bytes, by the fields of its memory and its offset, and those that say its size."""

    memory: str
    offset: str
    size: int
    sizes: tuple[str, ...] = ()


def results_of(command: commands.Command) -> list[Span]:
    """The ranges of result memories that a command writes."""
    told = command.values
    if command.name == "GetBucketStart":
        data = Span("data_memory", "data_offset", told["data_size"], ("data_size",))
        return [Span("result_memory", "result_offset", 4), *([data] if data.size else [])]
    if command.name == "GetBucketData":
        return [Span("memory", "memory_offset", told["size"], ("size",))]
    return []


def spans_of(command: commands.Command) -> list[Span]:
    """The ranges of memories that a command names."""
    if results := results_of(command):
        return results
    if "memory" not in command.values:
        return []
    return [Span("memory", "memory_offset", size_wanted(command), sizes_of(command))]


def sizes_of(command: commands.Command) -> tuple[str, ...]:
    """The fields that say how many bytes a command reads."""
    return ("w", "h") if "format" in command.values else ("size",)


def hostile_field(command: commands.Command, offset: str, size: int, sizes: tuple[str, ...]) -> str:
    """The field by which a range goes too far: the offset, or the greatest one of its size."""
    told = command.values
    if sizes and size > told.get(offset, 0):
        return max(sizes, key=lambda field: told[field])
    return offset


def fault_of_memory(command: commands.Command, stand: "Stand") -> Fault | None:
    """Check 9: which memory, where the script names memories or no script could."""
    sort = "result memory" if results_of(command) else "memory"
    spans = spans_of(command)
    for span in spans:
        if fault := fault_of_span(command, span, sort, stand):
            return fault
    if stand.plan is not None or not spans:
        return None
    if len(spans) > 1:
        return Fault(9, f"a {sort} is not declared, or a range goes past its end")
    return unknown_span(command, spans[0], sort)


def fault_of_span(
    command: commands.Command, span: Span, sort: str, stand: "Stand"
) -> Fault | None:
    """The fault of a range: without the script one that it has in every script."""
    number, begin = command.values[span.memory], command.values[span.offset]
    has, is_there = MEMORY_BYTES_AT_MOST, number <= NUMBER_AT_MOST
    if stand.plan is not None:
        areas = stand.plan.memories if sort == "memory" else stand.plan.results
        is_there = number in areas
        has = 4 * areas[number][1] if is_there else 0
    if not is_there:
        why = f"{sort} {number} is not declared"
        return Fault(9, why, (commands.place_of(command, span.memory),))
    if begin + span.size <= has:
        return None
    of = f"{sort} {number}, which has {has}" if stand.plan else f"any memory: at most {has:,}"
    field = hostile_field(command, *span[1:])
    return Fault(9, f"the bytes from {begin} to {begin + span.size} go past the end of {of}",
                 (commands.place_of(command, field),))


def unknown_span(command: commands.Command, span: Span, sort: str) -> Fault:
    """The fault of a range of a memory that only the script knows."""
    told = command.values
    why = f"{sort} {told[span.memory]} is not declared, or ends before byte "
    fields = (span.memory, hostile_field(command, *span[1:]))
    return Fault(9, f"{why}{told[span.offset] + span.size}",
                 tuple(commands.place_of(command, field) for field in fields))


def fault_of_store(command: commands.Command, stand: "Stand") -> Fault | None:
    """Checks 11 and 12, which look at the bucket or the buffer."""
    found = store_of(command, stand)
    if found is None or command.name == "SetBucketSize":
        return None
    told, (sort, things) = command.values, found
    at = (commands.place_of(command, sort),)
    if command.name == "CreateBuffer":
        return (
            Fault(11, f"buffer {told[sort]} is there already", at) if told[sort] in things else None
        )
    if told[sort] not in things:
        return Fault(11, f"{sort} {told[sort]} is not there", at)
    has, size = len(things[told[sort]]), size_wanted(command)
    end = told.get("offset", 0) + size
    if command.name in ("DeleteBuffer", "GetBucketStart") or end <= has:
        return None
    field = hostile_field(command, "offset", size, sizes_of(command))
    return Fault(12, f"{sort} {told[sort]} has {counted(has, 'byte')}, and the range ends at {end}",
                 (commands.place_of(command, field),))


def fault_of_words(words: Words, code: str, stand: "Stand") -> Fault | None:
    """The check that the words of a loss fail with an error, or None for words of no loss."""
    if len(words) == 1:
        return fault_of_header(words, code, stand)
    command = commands.decode(words)
    if (
        command.name == "no command"
        or len(words) < command.size
        or commands.TABLE[command.id][1] > command.size
    ):
        return None
    match code:
        case "2":
            return fault_of_memory(command, stand)
        case "6" if spans_of(command) and not results_of(command):
            return Fault(
                10, f"the words of the memory take those of the stream past {WORDS_AT_MOST:,}"
            )
        case "4":
            return fault_of_arguments(command) or fault_of_store(command, stand)
    return None


def loss(code: str, words: Words, stand: "Stand") -> str:
    """Why a stream was lost, in words."""
    if code == "memory":
        return "memory ran out"
    if not words:
        if stand.plan is None or not stand.open:
            return "the PUT of the flush is no place of the ring"
        return f"PUT is {stand.put}, and the ring has the places 0 to {stand.plan.ring - 1}"
    found = fault_of_words(words, code, stand)
    if found is None:
        return "its words fail no check with this error"
    named = ((words[at][1], words[at][0]) for at in found.words)
    which = " or ".join(f"word {value:08x} at place {place}" for value, place in named)
    return f"check {found.check}: {found.why} ({which or f'the command at place {words[0][0]}'})"
