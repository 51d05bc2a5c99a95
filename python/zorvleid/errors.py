"""What can be wrong with a script or with a text of commands: the one place that has the sentences.

docs/FORMATS.md lists them, and tests/command_faults.tsv has cases of them.
"""

MESSAGES = {
    # Lines and words
    "head": "the first line has to be `{head} 1` or `{head} 2`",
    "a script": "this is a script, and no text of commands: `disassemble` makes one of it",
    "a text": "this is a text of commands, and no script: `assemble` makes one of it",
    "an output": "this is an output of `run`, and no {what}",
    "mark": "the text begins with a byte-order mark: save it without one",
    "utf-16": "the text is UTF-16: save it as plain ASCII",
    "line": "no line begins with '{word}'; the nearest word is '{nearest}'",
    "form": "the line has to be `{form}`",
    "number": "{what} has to be a number from {least} to {greatest}, not '{given}'",
    "hexadecimal": "{what} has to be a number: '{given}' is hexadecimal "
    "where it is written 0x{given}",
    "prefix": "{what} has to be a number: '{given}' is written 0x{digits}",
    "whole": "{what} has to be a whole number, not {given}",
    "numbers": "{what} has to be numbers, not {given}",
    "value": "a value has 1 to 8 hexadecimal digits, unlike '{given}'",
    "priority": "the priority has to be high, normal or low, not '{given}'",
    "fence": "a fence is written {form}, not '{given}'",
    "after": "a fence is a stream and a release, not {given}",
    "unchecked": "after `unchecked` there has to be a command, a `word` line or a `put` line",
    # Keys of a command
    "command": "no command is called {given}",
    "pair": "'{word}' is not KEY=VALUE; the keys of {command} are {keys}",
    "key": "{command} has no key '{key}'; its keys are {keys}",
    "double": "the key '{key}' stands twice",
    "missing": "{command} lacks {keys}",
    "format": "format has to be {names} or a number, not '{given}'",
    "bytes": "bytes are pairs of hexadecimal digits, unlike '{given}'",
    "both": "data and bytes cannot stand together",
    "data": "a Noop of {size} entries has no room for {count} entries of data",
    # Streams and memories
    "no stream": "a `stream` line has to come first",
    "next": "the next stream is {wanted}, not {given}",
    "no name": "streams of version 1 have no names: the next one is stream {wanted}",
    "name": "a name is a namespace and an id, not {given}",
    "taken": "the stream {name} is there already",
    "streams": "a script has at most {most} streams",
    "late": "`{kind}` has to stand before the first action of its stream",
    "declared": "`{kind} {number}` is there already",
    "span": "the {kind} lines of a stream have at most {most} words together",
    "missing memory": "the stream has no `{kind} {number}`",
    "closed": "the stream is closed: only a `stream` line can follow",
    # Places
    "ring": "a value would stand at place {place}, and the ring has the places 0 to {last}",
    "memory": "word {word} is meant, and `{kind} {number}` has the words 0 to {last}",
    "large": "the command has {size} entries, "
    "and a ring of {ring} hands over at most {most} at once",
    "round": "the command has {size} entries, {left} are left before the end of the ring, "
    "and the ring has {ring}: "
    "fill the end first, with `Noop size={left}`, `flush` and `finish`",
    "in use": "the service may still read place {place}: "
    "wait by `finish` or `token` first, or allow it by `unchecked`",
    "pending": "place {place} has an entry that no `flush` has handed over",
    "full": "{count} entries were put since the last flush, "
    "and a ring of {ring} hands over at most {most} at once",
    # Limits
    "fences": "a flush has at most {most} fences",
    "flushes": "a script has at most {most} flushes",
    "actions": "a script has at most {most} actions",
    "long": "a script has at most {most} bytes, and this one has {count}",
}


GIVEN, LETTERS_AT_MOST = ("word", "given", "key"), 60  # what may be long, and how much is shown


def printable(text: str) -> str:
    """A text with an escape for each byte or letter that would not be seen."""
    return "".join(letter if letter.isprintable() else escape(ord(letter)) for letter in text)


def shown(name: str, said: object) -> object:
    """A part of a sentence. A long word of the text is cut."""
    if not isinstance(said, str):
        return said
    is_cut = name in GIVEN and len(said) > LETTERS_AT_MOST
    return printable(said[:LETTERS_AT_MOST]) + ".." if is_cut else printable(said)


def escape(code: int) -> str:
    r"""A letter as `\\x` and two digits, or more; bytes that are no text are 0xdc00 and above."""
    return f"\\x{code - 0xDC00:02x}" if 0xDC80 <= code <= 0xDCFF else f"\\x{code:02x}"


class ScriptError(ValueError):
    """A fault in one sentence: its name above, and the argument that it is about."""

    def __init__(self, kind: str, at: str = "", /, **said: object) -> None:
        super().__init__(
            MESSAGES[kind].format(**{name: shown(name, it) for name, it in said.items()})
        )
        self.kind, self.at = kind, at


class Refused(ValueError):
    """A fault of a text with its place; lines and columns count from 1."""

    def __init__(self, file: str, line: int, column: int, error: ScriptError) -> None:
        super().__init__(f"{printable(file)}:{line}:{column}: {error}")
        self.file, self.line, self.column, self.kind, self.why = (
            file,
            line,
            column,
            error.kind,
            str(error),
        )
