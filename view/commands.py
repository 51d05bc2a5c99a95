"""Commands by their words, for people to read: the names and arguments of the table.

Nothing is judged here. Words that are no command are shown as they are.
"""

from collections.abc import Iterable
from dataclasses import dataclass
from functools import cached_property
from typing import NamedTuple

from .plain import counted
from .table import BYTES_OF_FORMAT, ERRORS, FORMATS, NOOP, TABLE, WIDE

__all__ = ["BYTES_OF_FORMAT", "ERRORS", "FORMATS", "NOOP", "TABLE", "WIDE", "Command", "Words",
           "decode", "entries_wanted", "parse", "place_of"]


@dataclass
class Command:
    """The words of a command, read by the table."""

    id: int
    name: str
    size: int
    values: dict[str, int]  # its arguments by their names
    data: int  # how many entries of data follow the arguments
    transfer: int  # how many words of a memory follow the entries

    @cached_property
    def sentence(self) -> str:
        """The command as one line of plain words."""
        parts = [shown(field, value) for field, value in self.values.items()]
        if self.name == "no command":
            return f"no command has the id {self.id} (size {self.size})"
        if self.id == NOOP:
            parts.append(counted(self.size, "entry", "entries"))
        if self.data:
            parts.append(counted(self.data, "entry of data", "entries of data"))
        if self.transfer:
            parts.append(counted(self.transfer, "word of the memory", "words of the memory"))
        return f"{self.name}: " + ", ".join(parts) if parts else self.name


def entries_wanted(number: int, size: int) -> int:
    """How many entries of a command are fetched: a Noop is its header alone."""
    return 1 if number == NOOP else size


# by the id of a command: its arguments, and whether they have two entries
FIELDS = {number: [(field, field in WIDE) for field in fields.split() if field != "+"]
          for number, (_, _, fields) in TABLE.items()}


def decode(words: Iterable[tuple[int, int]]) -> Command:
    """The command of words, given as places and values. It has the arguments that are there."""
    return command_of([value for _, value in words])


def command_of(values: list[int]) -> Command:
    """The same of their values alone."""
    header = values[0] if values else 0
    size, number = header % 2**21, header // 2**21
    name = TABLE[number][0] if number in TABLE else "no command"
    entries = values[1:entries_wanted(number, size)] if number in TABLE else []
    found: dict[str, int] = {}
    at = 0
    for field, wide in FIELDS.get(number, ()):
        if at + wide >= len(entries):
            break
        found[field] = entries[at] + (entries[at + 1] << 32 if wide else 0)
        at += 1 + wide
    return Command(
        number, name, size, found, len(entries) - at, max(0, len(values) - 1 - len(entries))
    )


class Words(NamedTuple):
    """The words of an event: the place of the first one, the values of all, and their command."""

    place: int
    values: list[int]
    command: Command


def parse(words: str) -> Words:
    """Words as they are printed."""
    texts = words.split()
    values = [int(text[-8:], 16) for text in texts]
    return Words(int(texts[0][:-9]) if texts else 0, values, command_of(values))


def place_of(command: Command, field: str) -> int:
    """Where an argument stands among the entries of its command; the header is at 0."""
    at = 1
    for name, wide in FIELDS[command.id]:
        if name == field:
            break
        at += 1 + wide
    return at


def shown(field: str, value: int) -> str:
    if field == "texel":
        return f"texel {value:08x}"
    if field == "format":
        return f"format {value} ({FORMATS.get(value, 'none')})"
    return f"{field.replace('_', ' ')} {value}"
