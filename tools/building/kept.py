"""The unproved program of a preview, kept by the sum of its sources and of the toolchain.

The toolchain removes all that it makes. So while it runs, each program that appears below its
folder gets a second name. One that answers as it should is kept. A toolchain that shows no such
program keeps nothing.
"""

import os
import stat
import subprocess
import tempfile
import threading
from collections.abc import Iterator
from contextlib import contextmanager, suppress
from pathlib import Path

from .crates import LIST, PROGRAM, libraries, made_of, rows
from .sums import sums

KEPT = Path("crates/script_main/out/preview")  # from the top
TICK = 0.01  # seconds between two looks
ELF = b"\x7fELF"
SCRIPT, ANSWER = b"gpu-script 1\n", b"ok streams 0 actions 0 flushes 0\n"
SECONDS = 60
NO_VARIABLES: dict[str, str] = {}  # a preview runs as in the toolchain, with no environment


def place_of(top: Path, toolchain: str) -> Path:
    """Where the program of these sources and this toolchain is kept."""
    listed = libraries(top / LIST)
    names = made_of(PROGRAM, listed)
    below = {it: [lower for lower in listed[it] if lower in names] for it in names}
    return top / KEPT / sums(top, below, rows(top / LIST), toolchain)[PROGRAM]


def works(program: Path) -> bool:
    """Whether a file is a program that answers as it should."""
    with suppress(OSError, subprocess.TimeoutExpired):
        ran = subprocess.run([program, "check"], input=SCRIPT, capture_output=True, check=False,
                             env=NO_VARIABLES, timeout=SECONDS)
        return (ran.returncode, ran.stdout) == (0, ANSWER)
    return False


class Watch(threading.Thread):
    """Gives each program that is made below a folder a second name, until it is over."""

    def __init__(self, below: Path, into: Path) -> None:
        super().__init__(daemon=True)
        self.below, self.into = below, into
        self.found: dict[int, Path] = {}
        self.is_over = threading.Event()

    def run(self) -> None:
        while not self.is_over.wait(TICK):
            for folder, _, names in os.walk(self.below):
                for name in names:
                    with suppress(OSError):  # the file may be gone by now
                        self.look(Path(folder) / name)

    def look(self, path: Path) -> None:
        """Names a file once more if it is a new program, also one that is still being written."""
        status = path.lstat()
        is_new = status.st_ino not in self.found and status.st_mode & stat.S_IXUSR
        if not is_new or not stat.S_ISREG(status.st_mode):
            return
        with path.open("rb") as file:
            if file.read(len(ELF)) != ELF:
                return
        name = self.into / str(status.st_ino)
        os.link(path, name)
        self.found[status.st_ino] = name

    def keep(self, place: Path) -> None:
        """Keeps the last program that works, instead of those of other sources."""
        self.is_over.set()
        self.join()
        for path in reversed(self.found.values()):
            if works(path):
                os.replace(path, place)
                for other in place.parent.iterdir():
                    if other != place and other.is_file():
                        other.unlink()
                return


@contextmanager
def watched(place: Path) -> Iterator[dict[str, str]]:
    """The variables for a toolchain whose program is kept at a place once it has ended.

    Where nothing can be written there, nothing is kept.
    """
    try:
        place.parent.mkdir(parents=True, exist_ok=True)
        made = tempfile.TemporaryDirectory(prefix="making-", dir=place.parent)
    except OSError:
        yield {}
        return
    with made as name:
        below, into = Path(name) / "tmp", Path(name) / "found"
        below.mkdir()
        into.mkdir()
        watch = Watch(below, into)
        watch.start()
        try:
            yield {"TMPDIR": str(below)}
        finally:
            with suppress(OSError):
                watch.keep(place)
