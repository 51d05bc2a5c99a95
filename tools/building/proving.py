"""Has the toolchain prove crate after crate, side by side, and build the program.

A library holds its statements alone, unless `rt check` kept work of its crate: then it is built
over that, and is whole. The toolchain keeps no work of a proof with statements alone, so a crate
that is cut off begins anew.
"""

import contextlib
import ctypes
import errno
import os
import signal
import subprocess
import sys
import time
from collections.abc import Mapping
from dataclasses import dataclass
from pathlib import Path

from .crates import PROGRAM, Libraries, made_of
from .machine import free_disk
from .plan import Plan
from .rooms import Room
from .rt_once import STATEMENTS
from .telling import Teller, clock, minutes

TICK = 0.05
FULL = 50_000_000  # bytes: with fewer left, a proof that broke off did so for want of disk
NO_SPACE = os.strerror(errno.ENOSPC)
RT_ONCE = Path(__file__).with_name("rt_once.py")


class Refusal(Exception):
    """Why no program is built, in one line."""


class Interrupted(Exception):
    """The signal that a build was told to stop by."""

    def __init__(self, number: int) -> None:
        super().__init__(number)
        self.number = number


class Signals:
    """Notes a signal that asks to stop, so that what is under way ends before it counts."""

    def __init__(self) -> None:
        self.number = 0
        for number in (signal.SIGINT, signal.SIGTERM, signal.SIGHUP):
            if signal.getsignal(number) is not signal.SIG_IGN:
                signal.signal(number, self.note)

    def note(self, number: int, _: object) -> None:
        self.number = number

    def wait(self) -> None:
        """Waits a little, and raises where a signal came."""
        time.sleep(TICK)
        if self.number:
            raise Interrupted(self.number)


@dataclass(frozen=True)
class Proof:
    """A call of the toolchain that goes on."""

    room: Room
    process: subprocess.Popen[bytes]
    began: float
    log: Path


@dataclass(frozen=True)
class Sources:
    """What is proved, as of the time when it was read.

    For each crate: its row of crates.txt, what it stands on, and the sum of its sources.
    """

    top: Path
    rows: Mapping[str, str]
    below: Libraries
    sums: Mapping[str, str]
    read: float

    def room_of(self, crate: str) -> dict[str, str]:
        """The rows that a proof of a crate needs."""
        return {it: self.rows[it] for it in made_of(crate, self.below)}


def die_with_parent() -> None:
    """Has the system end this process with the one that started it, however that one ends."""
    ctypes.CDLL(None).prctl(1, signal.SIGKILL)


class Build:
    """The proofs of a plan, as far as they are."""

    def __init__(self, sources: Sources, plan: Plan, teller: Teller) -> None:
        self.sources, self.plan, self.teller = sources, plan, teller
        self.proofs: list[Proof] = []
        self.began = time.monotonic()
        self.whole = plan.seconds_left(self.began)

    def run(self, signals: Signals) -> None:
        """Proves all. Where that ends early, what was proved stands, and nothing else is left."""
        try:
            while self.plan.left() or self.proofs:
                for crate, jobs in self.plan.next(time.monotonic()):
                    self.begin(crate, jobs)
                if self.teller.is_terminal:
                    self.teller.show(self.standing())
                signals.wait()
                ended = [it for it in self.proofs if it.process.poll() is not None]
                for proof in sorted(ended, key=lambda it: it.process.returncode != 0):
                    self.end(proof)
        finally:
            self.leave()

    def begin(self, crate: str, jobs: int) -> None:
        room = Room(self.sources.top, crate)
        log = room.home / "build.log"
        room.home.mkdir(exist_ok=True)
        verb = "run" if crate == PROGRAM else "lib"
        words = [sys.executable, str(RT_ONCE), verb, "--jobs", str(jobs)]
        around = {it: told for it, told in os.environ.items() if it != STATEMENTS}
        if crate != PROGRAM and not room.has_kept():
            around[STATEMENTS] = "1"
        try:
            room.furnish(self.sources.room_of(crate))
            with log.open("wb") as file:
                process = subprocess.Popen(
                    words,
                    cwd=room.place,
                    env=around,
                    stdin=subprocess.DEVNULL,
                    stdout=file,
                    stderr=subprocess.STDOUT,
                    preexec_fn=die_with_parent,
                )
        except BaseException:
            room.leave()
            raise
        self.proofs.append(Proof(room, process, time.monotonic(), log))
        self.teller.event(f"{crate} begins, jobs: {jobs} ({self.count()})")

    def end(self, proof: Proof) -> None:
        """Brings home what a proof made, or says why it made nothing."""
        crate, status = proof.room.crate, proof.process.returncode
        if status in (-signal.SIGINT, 128 + signal.SIGINT):
            raise Interrupted(signal.SIGINT)
        # The status of `rt run` is the program's own.
        if (
            status != 0
            and crate != PROGRAM
            or not proof.room.bring_home(self.sources.sums[crate], self.sources.read)
        ):
            proof.room.leave()
            self.proofs.remove(proof)
            raise Refusal(f"{self.why(proof)}; {self.kept()}")
        proof.room.leave()
        proof.log.unlink()
        self.proofs.remove(proof)
        self.plan.end(crate)
        self.teller.event(
            f"{crate} is proved, after {clock(time.monotonic() - proof.began)} ({self.count()})"
        )

    def leave(self) -> None:
        """Ends the proofs that go on, and keeps what they have come to."""
        for proof in self.proofs:
            if proof.process.poll() is None:
                proof.process.kill()
            if proof.process.wait() == 0:
                with contextlib.suppress(OSError):  # a full disk, say, which ends this build
                    proof.room.bring_home(self.sources.sums[proof.room.crate], self.sources.read)
        if self.proofs:
            time.sleep(4 * TICK)  # the toolchain's own processes end once it has ended
        for proof in self.proofs:
            proof.room.leave()
            proof.log.unlink(missing_ok=True)
        self.proofs.clear()
        self.teller.clear()

    def why(self, proof: Proof) -> str:
        """Why a proof made nothing, and where the toolchain says more."""
        crate, log = proof.room.crate, proof.log.relative_to(self.sources.top)
        said = proof.log.read_text(encoding="utf-8", errors="replace")
        if NO_SPACE in said or free_disk(proof.log.parent) < FULL:
            return f"the disk is full: {crate} could not be proved, see {log}"
        match proof.process.returncode:
            case -9 | 137 | 247:
                why = "its proof was killed, most likely for memory (try --jobs 1)"
                return f"{crate}: {why}, see {log}"
            case status if status < 0:
                return f"{crate}: its proof was ended by signal {-status}, see {log}"
            case 2 if crate != PROGRAM:
                return f"{crate}: the toolchain stopped and judged nothing, see {log}"
            case 3 if crate != PROGRAM:
                return f"{crate}: the toolchain could not tell whether it is proved, see {log}"
        return f"{crate} is not proved, see {log}"

    def kept(self) -> str:
        count = f"{len(self.plan.done)} of {len(self.plan.below)}"
        return f"{count} crates stand, and the next build goes on from there"

    def count(self) -> str:
        return f"{len(self.plan.done)} of {len(self.plan.below)} done, {self.time_left()}"

    def time_left(self) -> str:
        """By the times of the crates, and by how much longer or shorter the first ones took."""
        now = time.monotonic()
        left = self.plan.seconds_left(now)
        passed = self.whole - left
        pace = (now - self.began) / passed if passed > self.whole / 20 else 1.0
        return f"about {minutes(left * pace)} left"

    def standing(self) -> str:
        now = time.monotonic()
        running = ", ".join(f"{it.room.crate} {clock(now - it.began)}" for it in self.proofs)
        return f"{self.count()}: {running}"
