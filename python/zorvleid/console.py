"""What the tools read and write: files, standard input and standard output.

A fault is one line, which names the file and says why.
"""

import errno
import os
import signal
import stat
import sys
from collections.abc import Callable, Iterable

from .errors import printable

STANDARD = "-"  # the name of standard input, and of standard output
BYTES_AT_MOST = 67_108_864  # of an output, with its script too, and of a text of commands
WHY: dict[type[OSError], str] = {
    FileNotFoundError: "no such file",
    IsADirectoryError: "it is a folder",
    PermissionError: "it may not be read",
}


class ReadFault(Exception):
    """A file that cannot be read."""

    def __init__(self, name: str, error: OSError) -> None:
        why = WHY.get(type(error)) or error.strerror
        super().__init__(f"read fault: {printable(name)}: {why}")


class WriteFault(Exception):
    """A file that cannot be written."""

    def __init__(self, name: object, error: OSError) -> None:
        super().__init__(f"write fault: {printable(str(name))}: {error.strerror}")


class TooLong(Exception):
    """An input that has more bytes than it may have."""

    def __init__(self, name: str, most: int) -> None:
        super().__init__(f"input too long: {printable(name)} has more than {most:,} bytes")


class ReadAndWritten(Exception):
    """A file that is named as an input and as an output."""


def input_name(name: str) -> str:
    """An input in words."""
    return "standard input" if name == STANDARD else name


def identity(place: str | int) -> tuple[int, int] | None:
    """What all names of a regular file have in common, from one of them or from a descriptor."""
    try:
        status = os.stat(place)
    except OSError:
        return None
    return (status.st_dev, status.st_ino) if stat.S_ISREG(status.st_mode) else None


def refuse_overwriting(inputs: Iterable[str], outputs: Iterable[str]) -> None:
    """Refuses an output that is one file with an input, whatever names the two have."""
    read = {identity(0 if name == STANDARD else name): name for name in inputs}
    read.pop(None, None)
    for name in outputs:
        found = read.get(identity(1 if name == STANDARD else name))
        if found is not None:
            shown = input_name(found) if name == STANDARD else name
            raise ReadAndWritten(f"{shown} is read and written")


def await_input() -> None:
    """Says on a terminal that standard input is read, which may look as if nothing happened."""
    if sys.stdin.isatty() and sys.stderr is not None:
        print("reading standard input, up to Ctrl-D", file=sys.stderr, flush=True)


def read(name: str, most: int = BYTES_AT_MOST) -> bytes:
    """The bytes of a file, or of standard input, of which there may be so many."""
    try:
        if name != STANDARD:
            with open(name, "rb") as opened:
                data = opened.read(most + 1)
        elif sys.stdin is None:  # who starts Python closes a folder, from which it does not start
            raise OSError(errno.EBADF, "it is closed, or a folder")
        else:
            await_input()
            data = sys.stdin.buffer.read(most + 1)
    except OSError as error:
        raise ReadFault(input_name(name), error) from None
    if len(data) > most:
        raise TooLong(input_name(name), most)
    return data


def write(parts: Iterable[bytes]) -> None:
    """Writes bytes to standard output, part by part."""
    try:
        if sys.stdout is None:
            raise OSError(errno.EBADF, "it is closed")
        sys.stdout.buffer.writelines(parts)
        sys.stdout.flush()
    except OSError as error:
        if sys.stdout is not None:  # Python would write what is left once more at its end
            os.dup2(os.open(os.devnull, os.O_WRONLY), sys.stdout.fileno())
        raise WriteFault("standard output", error) from None


def interruptible(work: Callable[[], int]) -> int:
    """The status of a work. Ctrl-C ends it; before and after, it has to wait.

    While Python starts or ends, Ctrl-C would be told as a fault of Python. So the shell script that
    starts it holds the signal back.
    """
    held = (signal.SIGINT,)
    try:
        try:
            signal.pthread_sigmask(signal.SIG_UNBLOCK, held)
            return work()
        finally:
            signal.pthread_sigmask(signal.SIG_BLOCK, held)
    except KeyboardInterrupt:
        return 128 + signal.SIGINT
