"""The program, as the tools start it: that of ./zorvleid, or another one that is named."""

import signal
import subprocess
from collections.abc import Iterator, Sequence
from contextlib import contextmanager
from pathlib import Path

from zorvleid.errors import printable

TOP = Path(__file__).resolve().parent.parent
WRAPPER, RELEASE = TOP / "zorvleid", TOP / "RELEASE"
BUILT, PACKED = TOP / "crates/script_main/out/script_main", TOP / "bin/script_main"
NOT_STARTED = 126
Ran = subprocess.CompletedProcess[bytes]


class NotStarted(Exception):
    """A program that does not start."""

    def __init__(self, program: Path, error: OSError) -> None:
        super().__init__(f"the program does not start: {printable(str(program))}: {error.strerror}")


def built() -> Path:
    """The program without the shell script, which is built first where it is missing or old."""
    if RELEASE.exists():
        return PACKED
    status = subprocess.run([TOP / "tools/build"], check=False).returncode
    if status:
        raise SystemExit(status)
    return BUILT


@contextmanager
def pipes_kept() -> Iterator[None]:
    """A program may end before it has read its input. Within this no tool ends by that."""
    signal.signal(signal.SIGPIPE, signal.SIG_IGN)
    try:
        yield
    finally:
        signal.signal(signal.SIGPIPE, signal.SIG_DFL)


def started(program: Path, words: Sequence[str], data: bytes) -> Ran:
    """The answer of a program to words and an input, from any thread."""
    try:
        return subprocess.run([program.resolve(), *words], input=data, capture_output=True,
                              check=False)
    except OSError as error:
        raise NotStarted(program, error) from None


def run(program: Path | None, words: Sequence[str], data: bytes) -> Ran:
    """The answer of the program, or of that of ./zorvleid, to words and an input."""
    with pipes_kept():
        return started(program or WRAPPER, words, data)
