"""A wrong word of a line, and how it is shown: in brackets, within the words around it."""

from collections.abc import Sequence
from dataclasses import dataclass

WORDS_AROUND, LETTERS_AT_MOST = 3, 40


@dataclass(frozen=True)
class Fault:
    """The place of the wrong word, which may be the one after the last; and what was expected."""

    place: int
    expected: str


def printable(text: str) -> str:
    """A text in which what cannot be printed is written by its number."""
    return "".join(char if char.isprintable() else f"\\x{ord(char):02x}" for char in text)


def shown(word: str) -> str:
    """A word, each byte of it a character, as it can be printed; cut where it is long."""
    front = word[:4 * LETTERS_AT_MOST]  # a letter has at most 4 bytes
    text = printable(front.encode("latin-1").decode("utf-8", "backslashreplace"))
    return text if len(text) <= LETTERS_AT_MOST else text[:LETTERS_AT_MOST] + ".."


def marked(words: Sequence[str], place: int) -> str:
    """The first word, and those around a place, with the one there in brackets."""
    parts = [shown(word) for word in words] + [""] * (place - len(words) + 1)
    parts[place] = f"[{parts[place] or ' '}]"
    first, last = max(place - WORDS_AROUND, 0), place + WORDS_AROUND + 1
    front = [] if first == 0 else parts[:1] if first == 1 else [parts[0], ".."]
    return " ".join([*front, *parts[first:last], *([".."] if last < len(parts) else [])])


def told(words: Sequence[str], fault: Fault) -> str:
    """A fault after the line that has it."""
    return f"{marked(words, fault.place)}: {fault.expected}" if words else fault.expected
