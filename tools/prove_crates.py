"""Proves the crates that the program is made of, side by side, and builds it.

tools/build calls this if the program is missing or older than a source, and lists its statuses.
Each crate is proved in a room of its own (tools/building/rooms.py), once all crates that it stands
on are proved. The longest chain of crates comes first, and with the most jobs
(tools/building/plan.py). Proved libraries are in the crates' folders out. So a build that was cut
off goes on from there, and after a change only the changed crates and the crates above them are
proved.
"""

import argparse
import contextlib
import errno
import fcntl
import os
import shutil
import subprocess
import sys
import time
from collections.abc import Iterator
from typing import NoReturn

from tools.building import crates, machine
from tools.building.plan import Lanes, Plan, lanes
from tools.building.proving import NO_SPACE, Build, Interrupted, Refusal, Signals, Sources
from tools.building.rooms import leave_all
from tools.building.sums import stands, sums
from tools.building.telling import Teller, counted, minutes
from tools.places import TOP

NOT_BUILT, USAGE = 126, 2


class Words(argparse.ArgumentParser):
    """Reports wrong words in one line."""

    def error(self, message: str) -> NoReturn:
        self.exit(USAGE, f"tools/build: {message}\n")


def jobs(text: str) -> int:
    if not (text.isascii() and text.isdigit() and 1 <= int(text) <= 1024):
        raise argparse.ArgumentTypeError(f"a number from 1 up is wanted, not {text!r}")
    return int(text)


def is_fresh() -> bool:
    return subprocess.run([TOP / "tools/build", "--fresh"], check=False).returncode == 0


@contextlib.contextmanager
def in_turn(names: list[str], teller: Teller, signals: Signals) -> Iterator[bool]:
    """Keeps others out of the crates' folders, as rt does; gives whether it had to wait."""
    held, has_waited = [], False
    try:
        for folder in sorted(TOP / "crates" / it for it in names):
            held.append(os.open(folder, os.O_RDONLY))
            while True:
                try:
                    fcntl.flock(held[-1], fcntl.LOCK_EX | fcntl.LOCK_NB)
                    break
                except BlockingIOError:
                    if not has_waited:
                        teller.say(f"waiting for another build or rt in {folder.relative_to(TOP)}")
                    has_waited = True
                    signals.wait()
                except OSError:  # some file systems have no locks
                    break
        yield has_waited
    finally:
        for it in held:
            os.close(it)


def toolchain() -> str:
    ran = subprocess.run(["rt", "version"], capture_output=True, text=True, check=False)
    if ran.returncode != 0:
        raise Refusal(
            f"'rt version' ends with status {ran.returncode}: the toolchain does not work"
        )
    return ran.stdout.strip()


def planned(sources: Sources, of: Lanes) -> Plan:
    """The plan for the program's crates, of which those that stand are done.

    A library that stands on one that is lost goes: statements fit only what they were proved over.
    """
    times = crates.read_times(TOP / crates.TIMES)
    seconds = {it: times[it].proof if it in times else crates.UNKNOWN for it in sources.below}
    done: set[str] = set()
    for crate, lower in sources.below.items():
        if not stands(TOP, crate, sources.sums[crate]):
            continue
        if done.issuperset(lower):
            done.add(crate)
        else:
            shutil.rmtree(TOP / "crates" / crate / "out/rlib")
    return Plan(sources.below, seconds, of, done)


def build(asked_jobs: int | None, teller: Teller, signals: Signals) -> None:
    """Builds the program, or raises why not."""
    rows = crates.rows(TOP / crates.LIST)
    if crates.PROGRAM not in rows:
        raise Refusal(f"{crates.LIST} lists no crate {crates.PROGRAM}")
    listed = crates.libraries(TOP / crates.LIST)
    names = crates.made_of(crates.PROGRAM, listed)
    with in_turn(names, teller, signals) as has_waited:
        if has_waited and is_fresh():
            return
        leave_all(TOP)
        read = time.time()
        below = {it: [lower for lower in listed[it] if lower in names] for it in names}
        sources = Sources(TOP, rows, below, sums(TOP, below, rows, toolchain()), read)
        processors = machine.processors()
        of = lanes(processors, machine.free_memory(), asked_jobs)
        work = Build(sources, planned(sources, of), teller)
        teller.begin(
            f"proving {len(work.plan.left())} of {len(names)} crates and building the program: "
            f"about {minutes(work.whole)} on {counted(processors, 'processor')}, "
            f"{counted(of.crates, 'crate')} at once"
        )
        work.run(signals)
        teller.say(f"proved and built, after {minutes(time.monotonic() - work.began)}")


def complain(line: object) -> int:
    print(line, file=sys.stderr)
    return NOT_BUILT


def main() -> int:
    parser = Words(prog="tools/build", allow_abbrev=False)
    parser.add_argument(
        "--jobs",
        type=jobs,
        metavar="N",
        help="prove at most N crates at once, whatever this machine has",
    )
    asked = parser.parse_args()
    if sys.stderr is None:  # it was closed
        sys.stderr = open(os.devnull, "w", encoding="utf-8")
    signals = Signals()
    try:
        build(asked.jobs, Teller(), signals)
    except Interrupted as by:
        complain("interrupted: what was proved stands, and the next build goes on from there")
        return 128 + by.number
    except Refusal as why:
        return complain(why)
    except OSError as error:
        if error.errno == errno.ENOSPC or NO_SPACE in str(error):
            return complain(
                "the disk is full: make room; what was proved stands, and the next build goes on"
            )
        return complain(f"the program could not be built: {error}")
    return (
        0 if is_fresh() else complain("no program that is newer than all of its sources was built")
    )


if __name__ == "__main__":
    sys.exit(main())
