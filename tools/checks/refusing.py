"""A program that is run with one failing call of the C library: to allocate, read or write.

tools/refusing.c stands before the C library then. It is compiled here, by $CC if that is set, else
by cc, gcc or clang, or by the toolchain's own compiler. If there is none of them, `ready` reports
that the check is skipped.
"""

import os
import shutil
import subprocess
import tempfile
from collections.abc import Iterator
from concurrent.futures import ThreadPoolExecutor
from contextlib import contextmanager
from dataclasses import dataclass
from itertools import count
from pathlib import Path

from tools.checks import workers as runs
from tools.checks.tally import Tally

SOURCE = Path("tools/refusing.c")
SECONDS = 300
AT_ONCE = os.cpu_count() or 1


def compilers() -> Iterator[list[str]]:
    """The commands of the compilers that are there."""
    names = [os.environ["CC"].split()] if os.environ.get("CC") else [["cc"], ["gcc"], ["clang"]]
    yield from (words for words in names if shutil.which(words[0]))
    toolchain = shutil.which("rt")
    if toolchain is not None:
        clang = Path(toolchain).resolve().parent.parent / "toolchain/bin/clang"
        if clang.exists():
            yield [str(clang), "-fuse-ld=lld"]


def compiled(source: Path, library: Path) -> str | None:
    """Compiles the library with the first compiler that can; None, or why there is none."""
    why = None
    for words in compilers():
        flags = ["-O2", "-Wall", "-shared", "-fPIC", "-nostdlib", "-o", str(library)]
        ran = subprocess.run([*words, *flags, source], capture_output=True, text=True, check=False)
        if ran.returncode == 0:
            return None
        why = why or f"{words[0]} does not compile it: {ran.stderr.strip()}"
    return why or "no compiler"


@contextmanager
def ready(
    top: Path, program: Path, tally: Tally, what: str, seconds: float = SECONDS
) -> "Iterator[Refusing | None]":
    """A program that can be run so, or None where this is skipped or has failed."""
    with tempfile.TemporaryDirectory() as folder:
        library = Path(folder) / "refusing.so"
        why = compiled(top / SOURCE, library)
        if why == "no compiler":
            tally.skip(what, f"no C compiler is there to make {SOURCE} (apt install gcc)")
        elif why:
            tally.tell(str(SOURCE), why)
        yield None if why else Refusing(program, library, Path(folder), seconds)


@dataclass(frozen=True)
class Refusing:
    """A program, and the library that refuses its calls."""

    program: Path
    library: Path
    folder: Path
    seconds: float

    def run(
        self, words: list[str], script: bytes, call: str, number: int, short: bool = False
    ) -> tuple[runs.Ran, bool]:
        """The program's answer, and whether the call came."""
        told, given = self.folder / f"told_{number}", self.folder / f"given_{number}"
        told.unlink(missing_ok=True)
        given.write_bytes(script)
        asked = {"LD_PRELOAD": str(self.library), "REFUSE_CALL": call, "REFUSE_AT": str(number),
                 "REFUSE_TOLD": str(told)}
        with given.open("rb") as file:
            ran = runs.run(self.program, words, file, self.seconds,
                           {**asked, **({"REFUSE_SHORT": "1"} if short else {})})
        return ran, told.exists()

    def each(
        self,
        words: list[str],
        script: bytes,
        call: str,
        short: bool = False,
        past_the_last: int = 1,
    ) -> Iterator[tuple[int, runs.Ran, bool]]:
        """For each call its number, the program's answer to its failure, and whether it came.

        The number of calls may differ from run to run. So the last number is the first of some
        calls in a row that did not come. A run that does not end is the last one too.
        """
        past = 0
        with ThreadPoolExecutor(AT_ONCE) as pool:
            for begin in count(1, AT_ONCE):
                numbers = range(begin, begin + AT_ONCE)
                for number, (ran, came) in zip(
                    numbers, pool.map(lambda it: self.run(words, script, call, it, short), numbers)
                ):
                    yield number, ran, came
                    past = 0 if came else past + 1
                    if past == past_the_last or ran.status is None:
                        return

    def shown(self, ran: runs.Ran) -> str:
        """How a run ended, in few words."""
        if ran.status is None:
            return f"it has not ended after {self.seconds} seconds"
        return (
            f"it ends with {ran.status}, {len(ran.output)} bytes of output, and {ran.fault[:60]!r} "
            "on standard error"
        )


def name_of(number: int, came: bool) -> str:
    """The call that a run was about."""
    return f"call {number}{'' if came else ', which did not come'}"
