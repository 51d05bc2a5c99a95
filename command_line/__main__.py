"""What `./zorvleid` calls for words: python3 -m command_line WORD ..

It writes the help or the version, starts a tool, or says why the words are refused, with status 2.
For a command line of the program that is right it does nothing, and ends with 0.
"""

import os
import signal
import sys

from . import help, judge
from .marks import printable
from .table import COMMANDS, TOP

USAGE, WRITE_FAULT, MISSING = 2, 4, 127


def write(text: str) -> int:
    """Writes a text to standard output."""
    why: str | None = "it is closed"
    try:
        if sys.stdout is not None:
            sys.stdout.write(text)
            sys.stdout.flush()
            return 0
    except OSError as error:
        os.dup2(os.open(os.devnull, os.O_WRONLY), 1)
        why = error.strerror
    print(f"write fault: standard output: {why}", file=sys.stderr)
    return WRITE_FAULT


def start(words: list[str]) -> int:
    """Puts the tool of a command in the place of this process."""
    tool = COMMANDS[words[0]].tool_for(words[1:])
    try:
        os.execv(TOP / tool[0], [str(TOP / tool[0]), *tool[1:], *words[1:]])
    except OSError as error:
        print(f"{TOP / tool[0]}: {error.strerror}", file=sys.stderr)
    return MISSING


def answer(words: list[str]) -> int:
    """Answers the words after the name of the program."""
    own = words[:words.index("--")] if "--" in words else words
    if own and own[0] in COMMANDS and not {"--help", "-h"}.isdisjoint(own[1:]):
        words = ["help", words[0]]
    if (why := judge.reason(words)) is not None:
        print(f"bad command line: {printable(why)}", file=sys.stderr)
        return USAGE
    if words[0] in judge.HELP:
        return write(help.text(words[1:]))
    if words[0] in judge.VERSION:
        from . import version  # it starts processes, which takes long to be read

        return write(version.text())
    return start(words) if COMMANDS[words[0]].tool_for(words[1:]) else 0


def main() -> int:
    """Answers the words of this process. A fault of this package itself is a line too."""
    held = (signal.SIGINT,)  # by the shell script, until Python can answer it
    try:
        try:
            signal.pthread_sigmask(signal.SIG_UNBLOCK, held)
            return answer(sys.argv[1:])
        finally:
            signal.pthread_sigmask(signal.SIG_BLOCK, held)
    except KeyboardInterrupt:
        return 128 + signal.SIGINT
    except Exception as fault:
        print(f"fault of command_line: {type(fault).__name__}: {fault}", file=sys.stderr)
        return WRITE_FAULT


if __name__ == "__main__":
    sys.exit(main())
