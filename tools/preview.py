"""Runs the program without a proof, for a look before the first build.

    tools/preview WORD.. [FILE]    as ./zorvleid WORD.., on a file or on standard input

The first time, the toolchain compiles the program in one to two minutes, with a sanitizer, which
stops at the first bad access. It proves nothing. The program is kept beside the built one, by the
sum of its sources and of the toolchain. So later runs begin at once, until one of these changes.

A toolchain may give no program that can be kept. Then each run compiles anew, what the program
writes comes when it has ended, and an output above 1 MiB does not come.

The status is the program's own. It is 126 if the program does not compile or gives no answer; 127
if the toolchain is missing; and 3 if FILE cannot be read.
"""

import os
import re
import shutil
import signal
import subprocess
import sys
import tempfile
from pathlib import Path
from typing import IO

from tools.building import kept
from tools.places import PROGRAM, TOP

FOLDER = TOP / PROGRAM.parent.parent
NOTICE = "preview: unproved; sanitizer on"
COMPILING = f"{NOTICE}; compiling takes one to two minutes"
SECONDS = 600  # for the program itself
MOST = 16_777_217  # bytes of an input are read, which is one more than it may have
STATUSES = range(12)  # those of the program
NO_ANSWER, MISSING, READ_FAULT, USAGE = 126, 127, 3, 2
UNREADABLE: dict[type[OSError], str] = {
    FileNotFoundError: "no such file",
    IsADirectoryError: "it is a folder",
    PermissionError: "it may not be read",
}
TAKE_A_FILE, TAKE_A_VALUE = ("run", "check", "verify"), ("--workers", "--views")
# The toolchain's last lines, after the program's own standard error.
SAYS = re.compile(r"(interpreter|checked|races): .*|run=.* proved=no")
ENDED = re.compile(r"run=ended status=(\d+) .*proved=no")
FAULT = re.compile(r"\w+: fault kind=\S+ in=\S+ at=(\S+): (.*)")
NOTHING = re.compile(r"checked: no-answer: (.*)")
TOO_MUCH = "the program wrote more than"


def parted(words: list[str]) -> tuple[list[str], str | None]:
    """The program's words, and the file, if the last word is no option and no option's value."""
    if (
        len(words) < 2
        or words[0] not in TAKE_A_FILE
        or words[-1].startswith("--")
        or words[-2] in TAKE_A_VALUE
    ):
        return words, None
    return words[:-1], None if words[-1] == "-" else words[-1]


def given(name: str | None) -> bytes:
    """The input, from a file or from standard input."""
    if name is not None:
        with open(name, "rb") as file:
            return file.read(MOST)
    if sys.stdin is None:
        raise OSError("standard input is closed")
    return sys.stdin.buffer.read(MOST)


def printable(text: str) -> str:
    """A text in which what cannot be printed is written by its number."""
    return "".join(char if char.isprintable() else f"\\x{ord(char):02x}" for char in text)


def say(text: str) -> None:
    """Writes a line to standard error."""
    print(text, file=sys.stderr, flush=True)


def run_kept(program: Path, words: list[str], file: IO[bytes]) -> int | None:
    """The status of a kept program, or None where it stopped: the toolchain can say where."""
    say(NOTICE)
    os.lseek(file.fileno(), 0, os.SEEK_SET)
    ran = subprocess.run([program, *words], stdin=file, stderr=subprocess.PIPE, check=False,
                         env=kept.NO_VARIABLES)
    if ran.returncode == -signal.SIGPIPE:
        return 128 + signal.SIGPIPE
    if ran.returncode not in STATUSES:
        return None
    sys.stderr.write(ran.stderr.decode(errors="replace"))
    return ran.returncode


def why_not(said: str) -> str:
    """Why there is no answer, by what the toolchain says."""
    if fault := FAULT.search(said):
        return f"the program stopped at {fault[1]}: {fault[2]}"
    if TOO_MUCH in said:
        return "more than 1 MiB of output, which a preview cannot show: build the program first"
    nothing = NOTHING.search(said)
    return nothing[1] if nothing else "the program does not compile"


def show(said: str, status: int) -> int:
    """Shows what the program wrote on standard error, or why it gave no answer."""
    lines = said.splitlines()
    ended = ENDED.fullmatch(lines[-1]) if lines else None
    own = len(lines)
    while own and SAYS.fullmatch(lines[own - 1]):
        own -= 1
    if ended:
        sys.stderr.writelines(f"{it}\n" for it in lines[:own])
        return int(ended[1])
    if TOO_MUCH not in said:
        sys.stderr.writelines(f"{it}\n" for it in lines[:own])
    say(f"preview: {why_not(said)} (rt try ends with status {status})")
    return NO_ANSWER


def compiled(words: list[str], file: IO[bytes], place: Path) -> int:
    """The status of the program as the toolchain compiles and runs it; the program is kept."""
    say(COMPILING)
    os.lseek(file.fileno(), 0, os.SEEK_SET)
    with kept.watched(place) as variables:
        ran = subprocess.run(
            ["rt", "try", "--seconds", str(SECONDS), "--", *words],
            cwd=FOLDER,
            stdin=file,
            stderr=subprocess.PIPE,
            check=False,
            env={**os.environ, **variables},
        )
    said = ran.stderr.decode(errors="replace")
    if TOO_MUCH in said and place.exists():
        if (status := run_kept(place, words, file)) is not None:
            return status
    return show(said, ran.returncode)


def look(words: list[str], data: bytes) -> int:
    """Runs the program on an input, and compiles it where it is not kept."""
    toolchain = subprocess.run(["rt", "version"], capture_output=True, text=True, check=False)
    place = kept.place_of(TOP, toolchain.stdout)
    with tempfile.TemporaryFile() as file:
        file.write(data)
        file.flush()
        if place.exists() and (status := run_kept(place, words, file)) is not None:
            return status
        return compiled(words, file, place)


def main() -> int:
    words, name = parted(sys.argv[1:])
    if not words:
        say("tools/preview takes the words of a command, as in tools/preview run FILE")
        return USAGE
    try:
        data = given(name)
    except OSError as error:
        why = UNREADABLE.get(type(error), "it cannot be read")
        say(f"read fault: {'standard input' if name is None else printable(name)}: {why}")
        return READ_FAULT
    if shutil.which("rt") is None:
        say("the program has to be compiled, and the toolchain (rt) is missing")
        return MISSING
    return look(words, data)


if __name__ == "__main__":
    for number in (signal.SIGTERM, signal.SIGHUP):  # so that no folder of a compilation is left
        signal.signal(number, lambda number, _: sys.exit(128 + number))
    try:
        signal.pthread_sigmask(signal.SIG_UNBLOCK, (signal.SIGINT,))  # tools/preview holds it back
        sys.exit(main())
    except KeyboardInterrupt:
        sys.exit(128 + signal.SIGINT)
