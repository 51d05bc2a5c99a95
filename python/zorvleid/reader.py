"""The reading of a script: `read_script` takes what the program takes, and says why not."""

import re
from collections.abc import Sequence
from difflib import get_close_matches
from typing import NamedTuple

from .commands import LONG, WORD
from .errors import Refused, ScriptError
from .script import BYTES_AT_MOST, PRIORITIES, Fence, Name, Script, Stream

WORDS = re.compile(r"[^ \t\r]+")
VALUE = re.compile(r"[0-9a-fA-F]{1,8}")
LETTERS = 60  # of a word are compared with other words
MARKS = {b"\xef\xbb\xbf": "mark", b"\xff\xfe": "utf-16", b"\xfe\xff": "utf-16"}
DECIMAL = {WORD: re.compile(r"[0-9]{1,10}"), LONG: re.compile(r"[0-9]{1,20}")}


# The texts that others are taken for: by their heads, and by the first words of outputs.
HEADS = {"gpu-script": "a script", "gpu-commands": "a text"}
WHATS = {"gpu-script": "script", "gpu-commands": "text of commands"}
OUTPUTS = ("gpu-journal", "order", "step", "image", "yes")


class Word(NamedTuple):
    """A word of a line, and its column, which counts from 1."""

    text: str
    column: int


class Reader:
    """Reads a script. The assembler reads more kinds of lines."""

    HEAD = "gpu-script"
    NOTES_AT_MOST = BYTES_AT_MOST // 2  # bytes of a text whose lines that are passed over are kept
    FORMS = {
        "memory": "memory M WORDS",
        "results": "results M WORDS",
        "put": "put PLACE VALUE ..",
        "fill": "fill M INDEX VALUE ..",
        "finish": "finish",
        "token": "token T",
        "close": "close",
        "dump": "dump M INDEX",
    }
    STREAMS = {1: "stream S PRIORITY RING", 2: "stream NS ID PRIORITY RING"}
    FLUSHES = {1: "flush PUT T R ..", 2: "flush PUT NS ID R .."}

    def __init__(self, file: str, awaits: bool = False) -> None:
        self.file, self.awaits, self.script = file, awaits, Script()
        self.has_head, self.keeps_notes, self.number, self.columns = False, True, 0, {"": 1}

    def read(self, data: bytes) -> Script:
        """The script of a text."""
        self.keeps_notes = len(data) <= self.NOTES_AT_MOST
        lines = data.decode("utf-8", "surrogateescape").split("\n")
        if lines[-1] == "":
            lines.pop()
        try:
            for mark, kind in MARKS.items():
                if data.startswith(mark):
                    self.number = 1
                    raise ScriptError(kind)
            for self.number, line in enumerate(lines, 1):
                self.read_line(line)
            if not self.has_head:
                self.number, self.columns = len(lines) + 1, {"": 1}
                raise ScriptError("head", head=self.HEAD)
        except ScriptError as error:
            column = self.columns.get(error.at, self.columns[""])
            raise Refused(self.file, self.number, column, error) from None
        return self.script

    def read_line(self, line: str) -> None:
        """Takes a line, or passes it over."""
        words = self.words_of(line)
        if not words:
            if self.keeps_notes:
                self.script.note(line.strip(" \t\r"))
            return
        self.columns = {"": words[0].column}
        if not self.has_head:
            self.take_head(words)
            return
        self.take(words)
        if self.script.streams:
            stream = self.script.streams[-1]
            stream.origins += [self.number] * (len(stream.items) - len(stream.origins))

    def take_head(self, words: Sequence[Word]) -> None:
        """Takes the head line."""
        texts = [word.text for word in words]
        if texts not in ([self.HEAD, "1"], [self.HEAD, "2"]):
            raise self.other_head(texts)
        self.has_head = True
        self.script = Script(
            int(words[1].text),
            self.awaits,
            notes=self.script.notes,
            notes_before_head=len(self.script.notes),
        )

    def other_head(self, texts: Sequence[str]) -> ScriptError:
        """What a text is whose first line is another one."""
        if texts[0] != self.HEAD and texts[0] in HEADS:
            return ScriptError(HEADS[texts[0]])
        if texts[0] in OUTPUTS or texts[0] == "stream" and "entries" in texts:
            return ScriptError("an output", what=WHATS[self.HEAD])
        return ScriptError("head", head=self.HEAD)

    def take(self, words: Sequence[Word]) -> None:
        """Takes a line of a script."""
        first, rest = words[0].text, words[1:]
        match first:
            case "stream":
                self.take_stream(rest)
            case "flush":
                self.take_flush(rest)
            case "put" | "fill":
                self.take_values(first, rest)
            case _ if first in self.FORMS:
                self.take_plain(first, rest)
            case _:
                self.take_other(words)

    def take_other(self, words: Sequence[Word]) -> None:
        """Takes a line that begins with no word of a script's line."""
        raise ScriptError("line", word=words[0].text, nearest=self.nearest(words[0].text))

    # --- Words ---

    def words_of(self, line: str) -> list[Word]:
        """The words of a line, and none of one that is passed over."""
        words = [Word(found[0], found.start() + 1) for found in WORDS.finditer(line)]
        return [] if words and words[0].text.startswith("#") else words

    def number_of(self, what: str, word: Word, greatest: int = WORD, least: int = 0) -> int:
        """A word as a number."""
        self.columns[what] = word.column
        found = self.parsed(word.text, greatest)
        if found is None or found > greatest:
            raise ScriptError(
                "number", what, what=what, least=least, greatest=greatest, given=word.text
            )
        return found

    def parsed(self, text: str, greatest: int) -> int | None:
        """A word as a number of any size, or None."""
        return int(text) if DECIMAL[greatest].fullmatch(text) else None

    def value_of(self, word: Word) -> int:
        """A word as a value of a `put` or a `fill` line."""
        if not VALUE.fullmatch(word.text):
            self.columns["value"] = word.column
            raise ScriptError("value", "value", given=word.text)
        return int(word.text, 16)

    # --- Lines ---

    def stream(self) -> Stream:
        """The last stream."""
        if not self.script.streams:
            raise ScriptError("no stream")
        return self.script.streams[-1]

    def take_stream(self, words: Sequence[Word]) -> None:
        form = self.STREAMS[self.script.version]
        if len(words) + 1 != len(form.split()):
            raise ScriptError("form", form=form)
        *named, priority, ring = words
        self.columns["PRIORITY"] = priority.column
        if priority.text not in PRIORITIES:
            raise ScriptError("priority", "PRIORITY", given=priority.text)
        if self.script.version == 1:
            name: Name = (0, self.number_of("S", named[0]))
        else:
            name = (self.number_of("NS", named[0]), self.number_of("ID", named[1], LONG))
        self.script.stream(priority.text, self.number_of("RING", ring), name)

    def take_values(self, first: str, words: Sequence[Word]) -> None:
        """Takes a `put` or a `fill` line."""
        places = 1 if first == "put" else 2
        if len(words) <= places:
            raise ScriptError("form", form=self.FORMS[first])
        if first == "put":
            self.take_put(
                self.number_of("PLACE", words[0]), [self.value_of(word) for word in words[1:]]
            )
        else:
            memory, index = self.number_of("M", words[0]), self.number_of("INDEX", words[1])
            self.stream().fill(memory, index, [self.value_of(word) for word in words[2:]])

    def take_put(self, place: int, values: Sequence[int]) -> None:
        """A script may overwrite what it likes."""
        with self.stream().unchecked():
            self.stream().put(place, values)

    def take_plain(self, first: str, words: Sequence[Word]) -> None:
        """Takes a line of a fixed number of numbers."""
        names = self.FORMS[first].split()[1:]
        if len(words) != len(names):
            raise ScriptError("form", form=self.FORMS[first])
        numbers = [self.number_of(name, word) for name, word in zip(names, words)]
        stream = self.stream()
        match first:
            case "memory":
                stream.memory(*numbers)
            case "results":
                stream.results(*numbers)
            case "token":
                stream.token(*numbers)
            case "dump":
                stream.dump(*numbers)
            case "finish":
                stream.finish()
            case _:
                stream.close()

    def take_flush(self, words: Sequence[Word]) -> None:
        """Takes a flush as a script has it: its PUT, and two or three numbers a fence."""
        count = self.script.version + 1
        if not words or len(words) % count != 1:
            raise ScriptError("form", form=self.FLUSHES[self.script.version])
        put = self.number_of("PUT", words[0])
        self.stream().flush(
            put, [self.fence(words[at : at + count]) for at in range(1, len(words), count)]
        )

    def fence(self, words: Sequence[Word]) -> Fence:
        """The words of a fence as numbers."""
        self.columns.setdefault("FENCE", words[0].column)
        release = self.number_of("RELEASE", words[-1], LONG)
        if self.script.version == 1:
            return self.number_of("STREAM", words[0]), release
        return (self.number_of("NS", words[0]), self.number_of("ID", words[1], LONG)), release

    def nearest(self, word: str) -> str:
        """The word of a line that is most like another word."""
        return nearest(word, ["stream", "flush", *self.FORMS])


def nearest(word: str, words: Sequence[str]) -> str:
    """The word that is most like another one."""
    low = {each.lower(): each for each in words}
    return low[get_close_matches(word[:LETTERS].lower(), low, 1, 0)[0]]


def read_script(data: bytes | str, file: str = "-") -> Script:
    r"""A script of its text. What the program refuses raises `Refused`.

    The lines that are passed over are kept, but for those of a very long script.

    >>> read_script("gpu-script 1\nstream 1 low 16\nflush 0\n").streams[0].priority
    'low'
    >>> read_script("gpu-script 1\nstream 2 low 16\n")
    Traceback (most recent call last):
    zorvleid.errors.Refused: -:2:8: the next stream is 1, not 2
    """
    return Reader(file).read(
        data if isinstance(data, bytes) else data.encode("utf-8", "surrogateescape")
    )
