"""The table of commands of the package zorvleid, in the form in which the tools here read it."""

from zorvleid import commands
from zorvleid.commands import BYTES_OF_FORMAT, FORMATS, WIDE

__all__ = ["BYTES_OF_FORMAT", "ERRORS", "FORMATS", "NOOP", "TABLE", "WIDE"]

# Each command's id, name, least size, and arguments. A `+` stands for entries of data.
TABLE: dict[int, tuple[str, int, str]] = {
    row.id: (row.name, row.size, " ".join([*row.keys, *(["+"] if row.has_data else [])]))
    for row in commands.TABLE.values()
}
NOOP = commands.NOOP.id
ERRORS = {str(code): name for code, name in commands.ERRORS.items()}
