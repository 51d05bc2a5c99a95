"""The cause of an answer of `verify`: a bad event, missing events, or a bad line.

The answer is the program's. The cause is found anew from the script and the journal, and proves
nothing.
"""

import re
import sys
from collections.abc import Iterable, Iterator
from pathlib import Path

from zorvleid import console, verdict
from zorvleid.errors import printable
from zorvleid.output import HEAD, NO_LINE_FEED, Lines, events_of
from zorvleid.script import BYTES_AT_MOST

from . import commands, due, files, programs, rules, sources, whole
from .script import Script
from .standing import Stand, Standing

NO, NOT_COMPLETE, NO_JOURNAL = 9, 10, 11
ANSWER = re.compile(
    r"no: event \d+ rule \d+|no: line \d+: \w+|not complete|refused: journal line \d+"
)
EVENT_FORMS = "order S N C, step S I:V .., finish S N, lost S CODE I:V .., lost S memory, close S"


class Input:
    """The parts of an input of `verify`: a script, the line `journal`, and the journal's events."""

    def __init__(self, data: bytes, journal_file: str | None = None) -> None:
        self.lines, self.journal_file = Lines(data).lines, journal_file
        self.journal = next((
            number for number, line in enumerate(self.lines, 1)
            if line.removesuffix(NO_LINE_FEED).strip(" \t\r") == "journal"), None)
        self.script = Script(
            line.removesuffix(NO_LINE_FEED) for line in self.lines[: (self.journal or 1) - 1]
        )
        self.heads: list[str] = []
        if self.script.version == 2:
            names = enumerate((plan.name for plan in self.script.plans), 1)
            self.heads = [HEAD,
                          *(f"name {number} {space} {name}" for number, (space, name) in names)]
        first = (self.journal or 0) + len(self.heads)
        self.events = events_of(self.lines[first:], first + 1) if self.journal else []

    def place(self, line: int) -> str:
        """A line in words: of the file of the journal, where that has one, or of the input."""
        if self.journal_file is None or self.journal is None:
            return f"line {line} of the input"
        return f"line {line - self.journal} of {self.journal_file}"

    def text(self, line: int) -> str | None:
        return self.lines[line - 1].removesuffix(NO_LINE_FEED) if line <= len(self.lines) else None


def standing_of(given: Input, count: int) -> Standing:
    """The state after some events of a legal journal."""
    standing = Standing([Stand(plan) for plan in given.script.plans], given.script.names)
    for event in given.events[:count]:
        standing.take(event)
    return standing


def on_no(given: Input, number: int, rule: int) -> Iterator[str]:
    """The rule, the event that breaks it, and the events that it allows."""
    event = given.events[number - 1]
    of_events, sentence = rules.table().get(rule, ("", "see docs/FORMATS.md"))
    yield f"event {number} of the journal, {given.place(event.line)}, breaks rule {rule}:"
    yield f"    {event.text}"
    yield f"stream: {event.stream}"
    if event.words:
        yield f"words: {commands.parse(event.words).command.sentence}"
    yield f"rule {rule}{f' (of {of_events})' if of_events else ''}: {sentence}"
    standing = standing_of(given, number - 1)
    for line in due.wanted(rule, event, standing):
        yield f"wanted: {line}"


def on_not_complete(given: Input) -> Iterator[str]:
    """The missing events, stream by stream."""
    standing = standing_of(given, len(given.events))
    count = len(given.events)
    yield f"the journal is legal up to its end, event {count}, and something is left to do:"
    for number, stand in enumerate(standing.streams, 1):
        left = list(due.left_of(number, stand, standing))
        yield f"stream {number}: " + ("; ".join(left) if left else "nothing")


def on_no_journal(given: Input, line: int) -> Iterator[str]:
    """The line of no journal, and the lines that could replace it."""
    if given.journal is None:
        yield (
            "the input has no line whose only word is `journal`: such a line and "
            "the journal must come after the script; or name two files, as in "
            "'explain SCRIPT JOURNAL'"
        )
        return
    text = given.text(line)
    ended = text is None or not given.lines[line - 1].endswith(NO_LINE_FEED)
    fault = " is no line of a journal:" if ended else " has no line feed at its end:"
    if text is None:
        fault = " is missing"
    yield f"{given.place(line)}{fault}"
    if text is not None:
        yield f"    {text}"
    place = line - given.journal - 1
    if place < len(given.heads):
        yield f"wanted: {given.heads[place]}"
    else:
        yield f"wanted: a line of an event: {EVENT_FORMS}"
        yield (
            "    with one space between words, no leading zeros, eight small digits in a value, "
            "and a line feed at the end"
        )


def meaning(
    status: int, said: str, data: bytes, journal_file: str | None = None
) -> Iterable[str]:
    """The lines that say what an answer means; none where it needs no words."""
    given = Input(data, journal_file)
    if status == NO and (found := re.fullmatch(r"no: event (\d+) rule (\d+)", said)):
        return on_no(given, int(found[1]), int(found[2]))
    if status == NO and (found := re.fullmatch(r"no: line (\d+): (\w+)", said)):
        return whole.on_line(given, int(found[1]), found[2])
    if status == NOT_COMPLETE:
        return on_not_complete(given)
    if status == NO_JOURNAL and (found := re.fullmatch(r"refused: journal line (\d+)", said)):
        return on_no_journal(given, int(found[1]))
    return ()


def input_of(script: str, journal: str | None, most: int) -> tuple[bytes, str | None]:
    """The input of `verify` from one file or from two, and the name of a file of the journal."""
    if journal is None:
        return sources.read(script, most), None
    if script == journal == console.STANDARD:
        raise files.WrongName("standard input cannot be both files")
    both = [sources.read(name, most) for name in (script, journal)]
    return verdict.joined(*both), console.input_name(journal)


def explain(
    names: tuple[str, str | None], program: Path | None, is_whole: bool, is_quiet: bool
) -> int:
    """Runs `verify`, passes on what it writes, adds what it means, and answers its status."""
    data, journal_file = input_of(*names, console.BYTES_AT_MOST if is_whole else BYTES_AT_MOST)
    ran = programs.run(program, ["verify", "--whole"] if is_whole else ["verify"], data)
    sys.stderr.buffer.write(ran.stderr)
    sys.stderr.flush()
    if not is_quiet:
        console.write([ran.stdout])
    console.write(answer(ran, data, journal_file))
    return ran.returncode


def answer(ran: programs.Ran, data: bytes, journal_file: str | None) -> Iterator[bytes]:
    """The lines that say what an answer of the program means."""
    if ran.returncode in (NO, NOT_COMPLETE, NO_JOURNAL):
        said = next(filter(ANSWER.fullmatch, ran.stderr.decode("latin-1").split("\n")), "")
        for line in meaning(ran.returncode, said, data, journal_file):
            yield printable(line).encode() + b"\n"
