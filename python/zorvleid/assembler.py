"""The reading of a text of commands, in which commands have names and keys.

docs/FORMATS.md has the lines. Each line of a script may stand too.
"""

import re
import sys
from collections.abc import Sequence

from .calls import FORMAT_NAMED, entries_of_bytes
from .commands import IMMEDIATE, LONG, NAMED, NOOP, WIDE, WORD, Command
from .errors import ScriptError
from .reader import Reader, Word, nearest
from .script import Fence, Script

HEXADECIMAL = re.compile(r"0[xX][0-9a-fA-F]+")
NO_PREFIX = re.compile(
    r"[0-9]*[a-fA-F][0-9a-fA-F]*"
)  # hexadecimal digits of which one is not decimal
HASH = re.compile(r"#([0-9a-fA-F]+)")  # as colours are written elsewhere
BYTES = re.compile(r"(?:[0-9a-fA-F]{2})*")
HANDS_OVER = {1: "flush [PUT] [after S:R ..]", 2: "flush [PUT] [after NS:ID:R ..]"}
FENCES = {1: "S:R, a stream and a release", 2: "NS:ID:R, the name of a stream and a release"}


class Assembler(Reader):
    """Reads a text of commands into a script."""

    HEAD = "gpu-commands"
    NOTES_AT_MOST = sys.maxsize

    def words_of(self, line: str) -> list[Word]:
        """The words of a line up to one that begins with `#`."""
        words = super().words_of(line)
        end = next((at for at, word in enumerate(words) if word.text.startswith("#")), None)
        return words[:end]

    def number_of(self, what: str, word: Word, greatest: int = WORD, least: int = 0) -> int:
        if NO_PREFIX.fullmatch(word.text):
            self.columns[what] = word.column
            raise ScriptError("hexadecimal", what, what=what, given=word.text)
        if found := HASH.fullmatch(word.text):
            self.columns[what] = word.column
            raise ScriptError("prefix", what, what=what, given=word.text, digits=found[1])
        return super().number_of(what, word, greatest, least)

    def parsed(self, text: str, greatest: int) -> int | None:
        """Numbers are decimal as in a script, or hexadecimal after `0x`."""
        return int(text, 16) if HEXADECIMAL.fullmatch(text) else super().parsed(text, greatest)

    def value_of(self, word: Word) -> int:
        """A value may have a `0x` before it."""
        return super().value_of(
            Word(word.text[2:] if HEXADECIMAL.fullmatch(word.text) else word.text, word.column)
        )

    # --- Lines ---

    def take_put(self, place: int, values: Sequence[int]) -> None:
        self.stream().put(place, values)

    def take_flush(self, words: Sequence[Word]) -> None:
        """Takes a flush with fences after `after`, or as a script has it."""
        texts = [word.text for word in words]
        if "after" not in texts and len(words) > 1:
            super().take_flush(words)
            return
        at = texts.index("after") if "after" in texts else len(words)
        if at > 1 or at + 1 == len(words):
            raise ScriptError("form", form=HANDS_OVER[self.script.version])
        put = self.number_of("PUT", words[0]) if at == 1 else None
        self.stream().flush(put, [self.named_fence(word) for word in words[at + 1 :]])

    def named_fence(self, word: Word) -> Fence:
        """A fence as one word, S:R or NS:ID:R."""
        parts, column = [], word.column
        for text in word.text.split(":"):
            parts.append(Word(text, column))
            column += len(text) + 1
        if len(parts) != self.script.version + 1:
            self.columns["FENCE"] = word.column
            raise ScriptError("fence", "FENCE", form=FENCES[self.script.version], given=word.text)
        return self.fence(parts)

    def take_other(self, words: Sequence[Word]) -> None:
        """Takes a command, a `word` line, or an `unchecked` line."""
        first, rest = words[0].text, words[1:]
        if first == "unchecked":
            self.take_unchecked(rest)
        elif first == "word":
            if not rest:
                raise ScriptError("form", form="word NUMBER ..")
            self.stream().word(*(self.number_of("value", word) for word in rest))
        elif first in NAMED:
            self.take_command(NAMED[first], rest)
        else:
            super().take_other(words)

    def take_unchecked(self, words: Sequence[Word]) -> None:
        if not words or words[0].text not in (*NAMED, "word", "put"):
            raise ScriptError("unchecked")
        self.columns[""] = words[0].column
        with self.stream().unchecked():
            self.take(words)

    def nearest(self, word: str) -> str:
        return nearest(word, [*NAMED, "word", "unchecked", "stream", "flush", *self.FORMS])

    # --- Commands ---

    def take_command(self, command: Command, words: Sequence[Word]) -> None:
        given = self.pairs(command, words)
        data = self.data_of(given)
        size = (
            self.number_of("size", given.pop("size"))
            if command is NOOP and "size" in given
            else None
        )
        if command is IMMEDIATE and data is not None and "size" not in given:
            given["size"] = Word(str(data[1]), self.columns[""])
        missing = [key for key in command.keys if key not in given]
        if missing:
            raise ScriptError("missing", command=command.name, keys=", ".join(missing))
        arguments = {key: self.argument(key, word) for key, word in given.items()}
        entries = data[0] if data else []
        self.stream().command(command, arguments, entries, size)

    def pairs(self, command: Command, words: Sequence[Word]) -> dict[str, Word]:
        """The text after each key."""
        keys = [
            *command.keys,
            *(["size"] if command is NOOP else []),
            *(["data", "bytes"] if command.has_data else []),
        ]
        given: dict[str, Word] = {}
        for word in words:
            self.columns["key"] = word.column
            key, equals, text = word.text.partition("=")
            if not equals:
                raise ScriptError(
                    "pair", "key", word=key, command=command.name, keys=", ".join(keys)
                )
            if key not in keys:
                raise ScriptError("key", "key", command=command.name, key=key, keys=", ".join(keys))
            if key in given:
                raise ScriptError("double", "key", key=key)
            given[key] = Word(text, word.column + len(key) + 1)
        return given

    def data_of(self, given: dict[str, Word]) -> tuple[list[int], int] | None:
        """Takes the entries of data out of the arguments, with their number of bytes, or None."""
        if "data" in given and "bytes" in given:
            self.columns["data"] = given["bytes"].column - len("bytes=")
            raise ScriptError("both", "data")
        if "bytes" in given:
            word = given.pop("bytes")
            if not BYTES.fullmatch(word.text):
                self.columns["bytes"] = word.column
                raise ScriptError("bytes", "bytes", given=word.text)
            told = bytes.fromhex(word.text)
            return entries_of_bytes(told), len(told)
        if "data" in given:
            word, column, entries = given.pop("data"), 0, []
            for text in word.text.split(","):
                entries.append(self.number_of("data", Word(text, word.column + column)))
                column += len(text) + 1
            return entries, 4 * len(entries)
        return None

    def argument(self, key: str, word: Word) -> int:
        """An argument of a command; a format may have its name."""
        if key == "format" and not word.text[:1].isdigit():
            self.columns[key] = word.column
            if word.text not in FORMAT_NAMED:
                raise ScriptError("format", key, names=", ".join(FORMAT_NAMED), given=word.text)
            return FORMAT_NAMED[word.text]
        return self.number_of(key, word, LONG if key in WIDE else WORD)


def assemble(data: bytes | str, file: str = "-", awaits: bool = False) -> Script:
    r"""The script of a text of commands. One that is wrong raises `Refused`.

    Where it `awaits`, a `finish` goes before what would overwrite entries that may still be read.

    >>> script = assemble("gpu-commands 1\nstream 1 low 16\nSetToken token=7\nflush\n")
    >>> list(script.lines())
    ['gpu-script 1', 'stream 1 low 16', 'put 0 00200002 7', 'flush 2']
    """
    text = data if isinstance(data, bytes) else data.encode("utf-8", "surrogateescape")
    return Assembler(file, awaits).read(text)
