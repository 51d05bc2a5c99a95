"""Parts of tools/check side by side, each in a process of its own, and a line as each one ends.

A part that fails beside others is tried once more by itself after all others, and only that counts.
The last lines name each item that failed once more.

If standard output and standard error are terminals, one line says how far the check is. It is
written anew each time, and only faults and the last lines stay.
"""

import os
import re
import subprocess
import sys
import tempfile
import time
from collections.abc import Callable, Iterator, Mapping, Sequence
from contextlib import suppress
from dataclasses import dataclass
from itertools import chain
from typing import IO

from tools.building.telling import Teller, clock
from tools.checks.tally import Tally

LAST = re.compile(r"(\d+) passed, (\d+) failed")
TICK = 0.1  # seconds between two looks at the parts
SLOWEST = 5  # how many parts are named at the end
Command = Callable[[str], Sequence[str]]  # the words that run one part


@dataclass(frozen=True)
class Ended:
    """A part that has ended: what it printed before its last line, its counts and its seconds."""

    part: str
    lines: list[str]
    passed: int
    failed: int
    seconds: float
    processor: float

    def __str__(self) -> str:
        return (f"{self.part}: {self.passed} passed, {self.failed} failed, {self.seconds:.0f} s "
                f"({self.processor:.0f} s of a processor)")


@dataclass(frozen=True)
class Running:
    """A part that runs, and the file that keeps what it prints."""

    part: str
    process: "subprocess.Popen[bytes]"
    file: IO[bytes]
    begun: float

    def ended(self) -> Ended | None:
        """What came of the part, or None while it runs."""
        number, status, usage = os.wait4(self.process.pid, os.WNOHANG)
        if not number:
            return None
        self.process.returncode = os.waitstatus_to_exitcode(status)
        self.file.seek(0)
        lines = self.file.read().decode(errors="replace").splitlines()
        last = LAST.fullmatch(lines[-1]) if lines else None
        if last and self.process.returncode == (last[2] != "0"):
            *lines, _ = lines
            passed, failed = int(last[1]), int(last[2])
        else:
            lines.append(f"failed: {self.part}: it ended with {self.process.returncode}")
            passed, failed = 0, 1
        return Ended(self.part, lines, passed, failed, time.monotonic() - self.begun,
                     usage.ru_utime + usage.ru_stime)


def started(part: str, command: Command) -> Running:
    file = tempfile.TemporaryFile()
    process = subprocess.Popen(command(part), stdin=subprocess.DEVNULL, stdout=file,
                               stderr=subprocess.STDOUT)
    return Running(part, process, file, time.monotonic())


def each(parts: Sequence[str], command: Command, jobs: int) -> Iterator[Ended | list[str]]:
    """What came of each part as it ends, and now and then the parts that run."""
    left, running = list(parts), list[Running]()
    try:
        while left or running:
            while left and len(running) < jobs:
                running.append(started(left.pop(0), command))
            yield [it.part for it in running]
            time.sleep(TICK)
            for it in running.copy():
                if (ended := it.ended()) is not None:
                    running.remove(it)
                    it.file.close()
                    yield ended
    finally:
        for it in running:
            it.process.terminate()
            with suppress(ChildProcessError):
                it.process.wait()


def run_all(usual: Mapping[str, int], command: Command, tally: Tally, jobs: int) -> None:
    """Runs parts, those that usually take longest first, and counts what they found."""
    teller, begun, done, again = Teller(), time.monotonic(), list[Ended](), list[str]()
    is_line = teller.is_terminal and sys.stdout.isatty()
    parts = sorted(usual, key=lambda it: -usual[it])
    try:
        # The parts to try again are known once all others have ended.
        for told in chain(each(parts, command, jobs), each(again, command, 1)):
            if isinstance(told, list):
                teller.show(f"{len(done)} of {len(usual)} parts, {tally.passed} passed, "
                            f"{tally.failed} failed, {clock(time.monotonic() - begun)}; now: "
                            f"{', '.join(told)}")
                continue
            before, after = "", ", by itself" if told.part in again else ""
            if told.failed and not after and min(jobs, len(parts)) > 1:
                before, after = "beside others: ", ", which is tried again by itself"
                again.append(told.part)
            else:
                done.append(told)
                tally.add(told.passed, told.failed, told.lines)
            teller.clear()
            for line in [*told.lines, *([] if is_line else [f"{told}{after}"])]:
                print(f"{before}{line}", flush=True)
    finally:
        teller.clear()
    tell_slowest(done, time.monotonic() - begun)
    tally.tell_again()


def tell_slowest(done: list[Ended], seconds: float) -> None:
    """Names the parts that took most of the processors."""
    slowest = sorted(done, key=lambda it: -it.processor)[:SLOWEST]
    print(f"{len(done)} parts in {seconds:.0f} s; most seconds of a processor: "
          + ", ".join(f"{it.part} {it.processor:.0f}" for it in slowest), flush=True)
