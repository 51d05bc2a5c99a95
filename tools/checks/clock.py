"""How long a program takes for something, by the clock, whatever else this machine does meanwhile.

Two times are taken off the clock. Linux keeps how long each thread was ready and had no processor;
these times of all threads of the program are added. It also keeps how long the host of a virtual
machine took its processors away. What is left is never less than what the busiest thread ran. A
program that sleeps is as slow as the clock says. If Linux does not keep the times, only the clock
counts.
"""

import os
import time
from collections.abc import Callable, Iterator
from dataclasses import dataclass
from pathlib import Path

PROCESSES = Path("/proc")
SECOND = 10**9  # what Linux counts in for a thread
STOLEN = 8  # the place of the time that the host took, in the first line of `stat`


@dataclass(frozen=True)
class Times:
    """The seconds that a thread ran, and those that it stood ready without a processor."""

    ran: float = 0
    waited: float = 0


def children() -> dict[int, list[int]]:
    """The processes that each process started."""
    found: dict[int, list[int]] = {}
    for path in PROCESSES.glob("[0-9]*/stat"):
        try:
            parent = int(path.read_text().rpartition(")")[2].split()[1])
        except OSError:  # it has ended
            continue
        found.setdefault(parent, []).append(int(path.parent.name))
    return found


def times(process: int) -> Iterator[tuple[str, Times]]:
    """The times of each thread of a process, and of the processes below it."""
    below, left = children(), [process]
    while left:
        this = left.pop()
        left += below.get(this, [])
        for path in (PROCESSES / f"{this}/task").glob("*/schedstat"):
            try:
                ran, waited, _ = path.read_text().split()
            except (OSError, ValueError):  # it has ended, or nothing is kept of it
                continue
            yield str(path), Times(int(ran) / SECOND, int(waited) / SECOND)


def stolen() -> float:
    """The seconds that the host took from the processors of this machine since its start."""
    try:
        words = (PROCESSES / "stat").read_text().split("\n", 1)[0].split()
        return int(words[STOLEN]) / os.sysconf("SC_CLK_TCK")
    except (OSError, ValueError, IndexError):
        return 0


def seconds_of(process: int, act: Callable[[], object]) -> float:
    """How many seconds a process takes for an act."""
    before, taken, begun = dict(times(process)), stolen(), time.monotonic()
    act()
    clock = time.monotonic() - begun
    taken = stolen() - taken
    spent = [
        (after.ran - before.get(thread, Times()).ran,
         after.waited - before.get(thread, Times()).waited)
        for thread, after in times(process)
    ]
    busiest = max((ran for ran, _ in spent), default=0.0)
    return max(busiest, clock - taken - sum(waited for _, waited in spent))
