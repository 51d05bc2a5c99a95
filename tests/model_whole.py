"""The judge of a whole output, written a second time and slowly: what `verify --whole` must say.

`answer(data)` gives the status and the line on standard error for an input: a script, a line
`journal`, and an output of some run. It shares nothing with the crates. model_history.py judges the
journal. Each line after it is compared with those that may stand there.
"""

import re
from collections.abc import Iterator, Sequence
from dataclasses import dataclass

from tests import model, model_history
from tests.model_history import History
from tests.model_script import Reader, Refused

NO, NOT_COMPLETE, NO_JOURNAL, REFUSED, TOO_LONG = 9, 10, 11, 5, 7
VIEWERS_AT_MOST, LOOKS, BYTES_AT_MOST = 4, 17, 67_108_864
Answer = tuple[int, str]


@dataclass(frozen=True)
class Due:
    """A line that is due: what it is of, and the lines that may stand there."""

    what: str
    lines: Sequence[str] = ()

    def fits(self, line: str, least: int) -> int | None:
        """How many events are seen at least from here on, where the line may stand here."""
        return 0 if line in self.lines else None


@dataclass(frozen=True)
class DueLook(Due):
    """A look of a viewer: any of a prefix that is not shorter than the one before."""

    viewer: int = 0
    is_first: bool = False
    is_last: bool = False
    sums: Sequence[int] = ()

    def fits(self, line: str, least: int) -> int | None:
        events, least = len(self.sums) - 1, 0 if self.is_first else least
        found = re.fullmatch(r"view ([1-9]) (0|[1-9][0-9]*) ([0-9a-f]{8})\n", line)
        if not found or int(found[1]) != self.viewer:
            return None
        seen = int(found[2])
        if not (events if self.is_last else least) <= seen <= events:
            return None
        return seen if int(found[3], 16) == self.sums[seen] else None


def words_on(line: str) -> list[str]:
    """The words of a line."""
    return [word for word in re.split("[ \t\r\n]+", line) if word]


def begins(line: str, parts: Sequence[str]) -> bool:
    """Whether the first word of a line is one of these."""
    return any(word in parts for word in words_on(line)[:1])


def head_dues(history: History) -> Iterator[Due]:
    """The head and the names of version 2."""
    for line in model.head(history):
        yield Due("name", [line + "\n"])


def dump_dues(history: History) -> Iterator[Due]:
    """The dumps, each with the lines of all values that may be told."""
    for number, s, at, place, flushes in history.dumps_planned():
        begin = s.finish_events[flushes - 1] if flushes else 0
        value, values = 0, set()
        for event, later in s.written.get(place, []):
            values |= {value} if event > begin else set()
            value = later
        yield Due("dump",
                  [f"dump {number} {at} {place} {one:08x}\n" for one in sorted({value} | values)])


def view_dues(history: History, viewers: int) -> Iterator[Due]:
    """The looks of these viewers."""
    for viewer in range(1, viewers + 1):
        for look in range(1, LOOKS + 1):
            yield DueLook("view", (), viewer, look == 1, look == LOOKS, history.sums)


def rest_dues(history: History, viewers: int) -> Iterator[Due]:
    """All lines after the journal."""
    for line in model.rest(history):
        first = line.partition(" ")[0]
        yield Due(first if first in ("stream", "mark") else "image", [line + "\n"])
    yield from dump_dues(history)
    yield from view_dues(history, viewers)


def first_off(dues: Iterator[Due], lines: Sequence[str]) -> tuple[int, str] | None:
    """The first line that is off, counted from 0, and what is off; or None. More may follow."""
    least = 0
    for at, due in enumerate(dues):
        if at == len(lines):
            return at, "missing"
        then = due.fits(lines[at], least)
        if then is None:
            return at, due.what
        least = then
    return None


def viewers_in(lines: Sequence[str]) -> int:
    """As many viewers as the view lines need."""
    count = sum(begins(line, ["view"]) for line in lines)
    return min(VIEWERS_AT_MOST, -(-count // LOOKS))


def no(line: int, what: str) -> Answer:
    return NO, f"no: line {line}: {what}"


def answer_to_text(script: Reader, lines: Sequence[str], before: int) -> Answer:
    """The answer to the lines after the line `journal`, before which stand so many lines."""
    history = History(script)
    heads = list(head_dues(history))
    if off := first_off(iter(heads), lines):
        return no(before + off[0] + 1, off[1])
    lines, before = lines[len(heads):], before + len(heads)
    end = next((at for at, line in enumerate(lines) if begins(line, model_history.OTHER_PARTS)),
               len(lines))
    journal, rest = lines[:end], lines[end:]
    for number, line in enumerate(journal, 1):
        if not line.endswith("\n") or model_history.read_event(line[:-1]) is None:
            return NO_JOURNAL, f"refused: journal line {before + number}"
    try:
        history = model_history.history_of(script, [line[:-1] for line in journal])
    except model_history.Broken as broken:
        return NO, f"no: event {broken.event} rule {broken.rule}"
    except model_history.NotComplete:
        return NOT_COMPLETE, "not complete"
    dues = list(rest_dues(history, viewers_in(rest)))
    if off := first_off(iter(dues), rest):
        return no(before + end + off[0] + 1, off[1])
    if len(rest) > len(dues):
        return no(before + end + len(dues) + 1, "more")
    return 0, ""


def answer(data: bytes) -> Answer:
    """The status of `verify --whole`, and its line on standard error."""
    if len(data) > BYTES_AT_MOST:
        return TOO_LONG, "input too long"
    lines = re.findall(r"[^\n]*\n|[^\n]+", data.decode("latin-1"))
    count = next((at for at, line in enumerate(lines) if words_on(line) == ["journal"]), None)
    try:
        script = Reader("".join(lines[:count]).encode("latin-1"))
    except Refused as refused:
        return REFUSED, f"refused: line {refused.line}: {refused.kind}"
    if count is None:
        return NO_JOURNAL, f"refused: journal line {len(lines) + 1}"
    return answer_to_text(script, lines[count + 1:], count + 1)
