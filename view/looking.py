"""The tools `log` and `compare` as they are called: their words, their inputs, their outputs."""

import argparse
import dataclasses
import difflib
import re
import sys
from collections.abc import Iterable, Iterator
from typing import Any

from zorvleid import console
from zorvleid.output import Output

from . import compare, comparing, cut, files, log, sources
from .history import History
from .table import TABLE

DIFFERENT = 1
NAMES = {name.lower(): name for name, _, _ in TABLE.values()}
STREAM = re.compile(r"(?:[0-9]{1,10}:)?[0-9]{1,20}", re.ASCII)
MARKS = {"failed": "image commands that changed nothing", "lost": "losses",
         "waits": "what made, dropped or ended a wait"}


def number(text: str) -> int:
    if not (text.isascii() and text.isdigit() and len(text) <= 10):
        raise argparse.ArgumentTypeError(f"{text!r} is no number")
    return int(text)


def stream(text: str) -> str:
    """A stream by its number, or by its name NS:ID."""
    if not STREAM.fullmatch(text):
        raise argparse.ArgumentTypeError(f"{text!r} is no number, and no name NS:ID")
    return text


def number_of(text: str, output: Output) -> int:
    """The number of a stream that is named so, or 0 where there is none."""
    space, colon, id = text.rpartition(":")
    names = output.names or [(0, stream.number) for stream in output.streams]
    if not colon:
        return int(id)
    name = (int(space), int(id))
    return names.index(name) + 1 if name in names else 0


def command_name(text: str) -> str:
    """The name of a command as the table has it, from capitals or small letters."""
    if text.lower() not in NAMES:
        near = difflib.get_close_matches(text.lower(), NAMES, 1)
        all_names = f"the commands are {', '.join(NAMES.values())}"
        hint = f"did you mean {NAMES[near[0]]!r}?" if near else all_names
        raise argparse.ArgumentTypeError(f"no command {text!r}; {hint}")
    return NAMES[text.lower()]


def add_script(tool: argparse.ArgumentParser) -> None:
    tool.add_argument(
        "--script", metavar="FILE", help="the script of the run, which tells PUT and all fences"
    )


def add_output(tool: argparse.ArgumentParser) -> None:
    tool.add_argument("output", metavar="OUTPUT", nargs="?", default=console.STANDARD)


def add_tools(tools: Any) -> None:
    """Adds the words of both tools."""
    tool = tools.add_parser(
        "log", allow_abbrev=False, help="write the events of an output in words, one a line"
    )
    add_output(tool)
    tool.add_argument("--json", action="store_true", help="as JSON, an object a line")
    tool.add_argument("--stream", metavar="S", type=stream, action="append", default=[],
                      help="those of stream S alone, or of the stream NS:ID")
    tool.add_argument("--order", metavar="N", type=number, action="append", default=[],
                      help="those of order number N alone")
    tool.add_argument("--command", metavar="NAME", type=command_name, action="append", default=[],
                      help="steps and losses of this command alone")
    for mark, what in MARKS.items():
        tool.add_argument(f"--{mark}", action="store_true", help=f"{what} alone")
    add_script(tool)
    tool = tools.add_parser(
        "compare", allow_abbrev=False, help="say where two outputs of one script differ"
    )
    tool.add_argument("first", metavar="A")
    tool.add_argument("second", metavar="B")
    tool.add_argument("--page", metavar="FILE", help="both and the difference as one HTML file")


def run_log(asked: argparse.Namespace) -> int:
    """Writes the log of an output."""
    output, script = sources.read_run(asked.output, asked.script)
    output = cut.completed(output, script)
    progress = log.Progress(len(output.events))
    history = History(output, script, lambda *_: progress.step())
    parts = list(parts_of(asked, output))
    choice = log.Choice(*(frozenset().union(*(getattr(part, field.name) for _, part in parts))
                          for field in dataclasses.fields(log.Choice)))
    progress.end()
    write_lines(log.lines(history, choice, asked.json))
    notes = history.notes if asked.json or not history.output.is_cut else []
    note([*notes, *log.unmatched(history, choice, parts)] if parts else notes)
    return 0


def parts_of(asked: argparse.Namespace, output: Output) -> Iterator[tuple[str, log.Choice]]:
    """Each option that selects events, with what it alone selects."""
    for text in asked.stream:
        yield f"--stream {text}", log.Choice(streams=frozenset([number_of(text, output)]))
    for order in asked.order:
        yield f"--order {order}", log.Choice(orders=frozenset([order]))
    for name in asked.command:
        yield f"--command {name}", log.Choice(commands=frozenset([name]))
    for mark in MARKS:
        if getattr(asked, mark):
            yield f"--{mark}", log.Choice(marks=frozenset([mark]))


def run_compare(asked: argparse.Namespace) -> int:
    """Says how two outputs differ, and writes their page."""
    names = (asked.first, asked.second)
    if names == (console.STANDARD, console.STANDARD):
        raise files.WrongName("standard input cannot be both outputs")
    outputs = [sources.read_run(name)[0] for name in names]
    known = max(map(cut.names_of, outputs), key=len)
    outputs = [cut.completed(output, names=known) for output in outputs]
    comparison = compare.Comparison(*map(History, outputs))
    if asked.page is not None:
        files.write_all([(asked.page, comparing.text(comparison, names).encode())])
    write_lines(compare.lines(comparison))
    return 0 if comparison.is_same else DIFFERENT


def write_lines(lines: Iterable[str]) -> None:
    console.write(line.encode() + b"\n" for line in lines)


def note(texts: Iterable[str]) -> None:
    """Says on standard error what of the output its journal does not give, or no option matches."""
    for text in texts:
        print(f"note: {text}", file=sys.stderr)


TOOLS = {"log": run_log, "compare": run_compare}
