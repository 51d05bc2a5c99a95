"""The inputs of the tools: outputs and scripts, from standard input or from named files."""

import re

from zorvleid import console
from zorvleid.errors import printable
from zorvleid.output import NO_LINE_FEED, Lines, Output, OutputRefused, read_output
from zorvleid.script import BYTES_AT_MOST

from .script import Script

HEAD = re.compile(rb"^[ \t\r]*([^#\s]\S*)", re.MULTILINE)


class WrongOutput(Exception):
    """A file that is no output, or that is empty."""


class NoScript(Exception):
    """A script that cannot be read, or that is not the one of the output."""


def read(name: str, most: int = console.BYTES_AT_MOST) -> bytes:
    """The bytes of a file, or of standard input, with line feeds alone at the ends of the lines."""
    return console.read(name, most).replace(b"\r\n", b"\n")


def read_filled(name: str) -> bytes:
    """The bytes of an output. One that is empty is refused: the run before may have failed."""
    if data := read(name):
        return data
    of = "the output" if name == console.STANDARD else printable(name)
    raise WrongOutput(f"refused: {of} is empty, and nothing is written: did the run before fail?")


def head_of(data: bytes) -> bytes:
    """The first word of a text that is in no comment."""
    found = HEAD.search(data)
    return found[1] if found else b""


def parted(data: bytes) -> tuple[bytes | None, bytes, int]:
    """The script before a line `journal`, if there is one, and what stands after it from a line on.

    So recorders write, and so the input of `verify` is.
    """
    if head_of(data) == b"gpu-script":
        lines = data.split(b"\n")
        for at, line in enumerate(lines):
            if line.split() == [b"journal"]:
                return b"\n".join(lines[:at]) + b"\n", b"\n".join(lines[at + 1:]), at + 2
    return None, data, 1


def read_run(
    name: str, script: str | None = None, has_journal: bool = True
) -> tuple[Output, Script | None]:
    """An output whose end may be missing, and its script: the named one, or that before it."""
    return run_in(read_filled(name), name, script, has_journal)


def run_in(
    given: bytes, name: str, script: str | None = None, has_journal: bool = True
) -> tuple[Output, Script | None]:
    """The same, of the bytes of a file."""
    before, data, first = parted(given)
    output = output_of(data, name, has_journal, False, first)
    known = read_script(script)
    if known is None and before is not None:
        known = script_of(console.input_name(name), before)
    return output, known


def read_journal(name: str) -> Output:
    """An output of `run`, which has a journal."""
    return journal_of(read_filled(name), name)


def journal_of(data: bytes, name: str) -> Output:
    """The output of `run` that the bytes of a file are."""
    return output_of(data, name, has_journal=True)


def output_of(
    data: bytes, name: str, has_journal: bool, is_whole: bool = True, first: int = 1
) -> Output:
    """The output that the bytes of a file are, which may have to have a journal."""
    try:
        output = read_output(data, is_whole, first)
        if has_journal and output.is_verdict:
            raise OutputRefused(1, "the output of verify has no journal")
    except OutputRefused as refused:
        if name == console.STANDARD:
            raise
        why = str(refused).removeprefix("refused: ")
        raise WrongOutput(f"refused: {printable(name)}: {why}") from None
    return output


def read_script(name: str | None) -> Script | None:
    """A lawful script, where one is named."""
    return None if name is None else script_of(name, read(name, BYTES_AT_MOST))


def script_of(name: str, data: bytes) -> Script:
    """The lawful script of a file that was read."""
    lines = [line.removesuffix(NO_LINE_FEED) for line in Lines(data).lines]
    try:
        if not lines:
            raise ValueError("it is empty")
        return Script(lines)
    except (ValueError, IndexError, KeyError):
        raise NoScript(
            f"refused: {printable(name)}: it is no lawful script; './zorvleid check' says why"
        ) from None
