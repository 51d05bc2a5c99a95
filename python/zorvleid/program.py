"""The proved program as functions: `run` and `check` of a script. `verify` stands in verdict.py."""

import os
import re
import shutil
import subprocess
from collections.abc import Sequence
from dataclasses import dataclass
from functools import cached_property
from pathlib import Path

from .output import Output, read_output
from .script import Script

OK, SOME_LOST, REFUSED, MEMORY_LOST = 0, 1, 5, 8
LINE = re.compile(r"refused: line (\d+): (\w+)")
COUNTS = re.compile(r"ok streams (\d+) actions (\d+) flushes (\d+)\n")


class ProgramFault(Exception):
    """The program is not there, or does not answer."""


class ProgramRefused(ValueError):
    """The program refuses a script: its first bad line, the kind of the fault, and all it says."""

    def __init__(self, said: str) -> None:
        super().__init__(said)
        found = LINE.match(said)
        self.line, self.kind = (int(found[1]), found[2]) if found else (0, "")


@dataclass(frozen=True)
class Ran:
    """What a run wrote, and its status: 0, or 1 or 8 where a stream was lost."""

    status: int
    text: bytes
    said: str = ""  # on standard error

    @cached_property
    def output(self) -> Output:
        """What was written, as values."""
        return read_output(self.text)


@dataclass(frozen=True)
class Counts:
    """The numbers of a script that the program takes."""

    streams: int
    actions: int
    flushes: int


def program_here() -> Path:
    """The program: $ZORVLEID, `zorvleid` of this repository, or `zorvleid` on the path."""
    beside = Path(__file__).resolve().parents[2] / "zorvleid"
    found = os.environ.get("ZORVLEID") or (
        str(beside) if beside.is_file() else shutil.which("zorvleid")
    )
    if not found:
        raise ProgramFault("there is no program: set ZORVLEID to it, or put zorvleid on the path")
    return Path(found)


def bytes_of(text: Script | str | bytes) -> bytes:
    """A script or a journal as the program reads it."""
    told = text.text() if isinstance(text, Script) else text
    return told.encode("utf-8", "surrogateescape") if isinstance(told, str) else told


def called(
    words: Sequence[str], data: bytes, program: Path | str | None
) -> "subprocess.CompletedProcess[bytes]":
    """The program's answer to words and an input."""
    path = Path(program or program_here()).resolve()
    try:
        return subprocess.run([path, *words], input=data, capture_output=True, check=False)
    except OSError as error:
        raise ProgramFault(f"the program does not start: {path}: {error.strerror}") from None


def fault_of(ran: "subprocess.CompletedProcess[bytes]") -> ProgramFault | ProgramRefused:
    """Why there is no answer."""
    said = ran.stderr.decode("utf-8", "replace").strip()
    if ran.returncode == REFUSED and LINE.match(said):
        return ProgramRefused(said)
    return ProgramFault(f"the program ends with status {ran.returncode}: {said}")


def run(
    script: Script | str | bytes,
    workers: int = 0,
    views: int = 0,
    program: Path | str | None = None,
) -> Ran:
    r"""Has the program run a script: on one thread, or with workers, and with viewers.

    >>> run("gpu-script 1\nstream 1 low 16\nput 0 00200002 7\nflush 2\n").output.streams[0].token
    7
    """
    words = ["run", *(["--workers", str(workers)] if workers or views else [])]
    words += ["--views", str(views)] if views else []
    ran = called(words, bytes_of(script), program)
    if ran.returncode not in (OK, SOME_LOST, MEMORY_LOST):
        raise fault_of(ran)
    return Ran(ran.returncode, ran.stdout, ran.stderr.decode("utf-8", "replace").strip())


def check(script: Script | str | bytes, program: Path | str | None = None) -> Counts:
    r"""Has the program read a script, and count it. One that it does not take is refused.

    >>> check("gpu-script 1\nstream 1 low 16\nput 0 00200002 7\nflush 2\n")
    Counts(streams=1, actions=3, flushes=1)
    """
    ran = called(["check"], bytes_of(script), program)
    found = COUNTS.fullmatch(ran.stdout.decode("latin-1"))
    if ran.returncode != OK or found is None:
        raise fault_of(ran)
    return Counts(*map(int, found.groups()))
