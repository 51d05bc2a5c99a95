"""Why a line is none of a journal: the word that is wrong, and what was expected in its place."""

import re
from collections.abc import Sequence

from .marks import Fault
from .scripts import Form, near, words_of

FORMS = (
    Form("order", ("S", "N", "C")), Form("step", ("S",), ("I:V",)), Form("finish", ("S", "N")),
    Form("lost", ("S", "CODE"), ("I:V",)), Form("close", ("S",)),
)
EVENTS = {form.first: form for form in FORMS}
CODES = ("1", "2", "3", "4", "6", "memory")
NUMBER, PAIR = re.compile("0|[1-9][0-9]*"), re.compile("(0|[1-9][0-9]*):[0-9a-f]{8}")
ANY = "the line of an event begins with order, step, finish, lost or close"
NO_JOURNAL = (
    "no line has the one word `journal`, which stands between the script and the journal; "
    "two files need none: verify SCRIPT JOURNAL"
)
GLUED = "a journal begins here, and the line `journal` is missing before it"


def begins(word: str) -> bool:
    """Whether a line with this first word begins a journal."""
    return word in ("gpu-journal", "order", "step", "lost")


def is_number(word: str) -> bool:
    """Whether a word is a number as a journal has them."""
    return NUMBER.fullmatch(word) is not None and int(word) < 2**32


def expected_of(name: str, word: str) -> str | None:
    """What is expected of a word, by its name in the form of the line; or None where it is so."""
    match name:
        case "CODE":
            return None if word in CODES else f"CODE is {', '.join(CODES[:-1])} or {CODES[-1]}"
        case "I:V":
            is_pair = PAIR.fullmatch(word) and is_number(word.partition(":")[0])
            return None if is_pair else "I:V is a place, and a value of eight small digits"
        case _:
            is_so = is_number(word)
            return None if is_so else f"{name} is a number below 2^32, without leading zeros"


def fault_of_event(words: Sequence[str]) -> Fault | None:
    """What is wrong with the words of a line that is none of an event."""
    for place, word in enumerate(words):
        if words_of(word) != [word]:
            return Fault(place, "one space stands between two words, and nothing around them")
    if (form := EVENTS.get(words[0])) is None:
        return Fault(0, ANY + near(words[0], EVENTS))
    names = form.names(len(words) - 1)
    if list(words[2:3]) == ["memory"]:
        names = names[:2]
    for place, (name, word) in enumerate(zip(names, words[1:]), 1):
        if expected := expected_of(name, word):
            return Fault(place, expected)
    if len(words) <= len(names):
        return Fault(len(words), f"{names[len(words) - 1]} is missing; the line is `{form}`")
    if len(words) > len(names) + 1:
        return Fault(len(names) + 1, f"this word is one too many; the line is `{form}`")
    return None


def heads_of(lines: Sequence[str]) -> list[str]:
    """The lines with which the journal of a right script begins."""
    rows = [words for line in lines if (words := words_of(line)) and words[0][0] != "#"]
    if rows[0] != ["gpu-script", "2"]:
        return []
    names = [row for row in rows if row[0] == "stream"]
    told = (f"name {at} {int(row[1])} {int(row[2])}" for at, row in enumerate(names, 1))
    return ["gpu-journal 2", *told]


def fault_of(lines: Sequence[str], number: int) -> Fault:
    """What is wrong with a line of the input of `verify`, which may be the one after the last."""
    begin = next((at for at, line in enumerate(lines, 1) if words_of(line) == ["journal"]), None)
    if begin is None:
        return Fault(0, NO_JOURNAL)
    line = lines[number - 1] if number <= len(lines) else ""
    heads = heads_of(lines[:begin - 1])
    head = heads[number - begin - 1] if number - begin <= len(heads) else None
    if head and line != head:
        return Fault(0, f"`{head}` has to stand here, as the script has it")
    fault = None if head else fault_of_event(line.split(" "))
    return fault or Fault(line.count(" "), "the line has no line feed at its end")
