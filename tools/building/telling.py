"""How far a build is, on standard error: in one line on a terminal, or a line for each event.

Without a terminal the first line alone comes, unless ZORVLEID_PROGRESS is 1.
"""

import math
import os
import sys


def minutes(seconds: float) -> str:
    """Whole minutes, at least one."""
    return f"{max(1, math.ceil(seconds / 60))} min"


def counted(number: int, one: str) -> str:
    """A number of things."""
    return f"{number} {one}{'' if number == 1 else 's'}"


def clock(seconds: float) -> str:
    return f"{int(seconds) // 60}:{int(seconds) % 60:02}"


LOOK = "for a look before, './zorvleid preview run FILE' takes two minutes"
HEAR = "ZORVLEID_PROGRESS=1 shows how far it is"


class Teller:
    """Says the first line of a build, and more where somebody listens."""

    def __init__(self) -> None:
        self.is_terminal = sys.stderr.isatty()
        self.is_heard = self.is_terminal or os.environ.get("ZORVLEID_PROGRESS") == "1"
        self.shown = ""

    def begin(self, text: str) -> None:
        """The first line, which comes always. It says what else can be seen meanwhile."""
        parts = [text, LOOK] if self.is_heard else [text, HEAR, LOOK]
        print("; ".join(parts), file=sys.stderr, flush=True)

    def say(self, text: str) -> None:
        """A line that stays."""
        if self.is_heard:
            self.clear()
            print(text, file=sys.stderr, flush=True)

    def event(self, text: str) -> None:
        """An event of one crate: a terminal shows it in its one line."""
        if not self.is_terminal:
            self.say(text)

    def show(self, text: str) -> None:
        """Writes the terminal's one line anew."""
        if not self.is_terminal:
            return
        try:
            width = os.get_terminal_size(sys.stderr.fileno()).columns - 1
        except OSError:
            width = 79
        text = text if len(text) <= width or width < 20 else f"{text[: width - 3]}..."
        if text != self.shown:
            sys.stderr.write(f"\r{text}{' ' * (len(self.shown) - len(text))}")
            sys.stderr.flush()
            self.shown = text

    def clear(self) -> None:
        if self.shown:
            sys.stderr.write(f"\r{' ' * len(self.shown)}\r")
            self.shown = ""
