"""The order of the crates, their jobs, and the seconds that all may take.

A crate begins once all that it stands on is proved. Of those that may begin, that one comes first
with which the longest chain of proofs begins.
"""

from collections.abc import Mapping
from dataclasses import dataclass, field

from .crates import Libraries

# Bytes: the prover at one job over libraries of statements, each further job of it, and a check of
# the gate, among which are those of tests.
A_CRATE, A_JOB, A_CHECK = 2_000_000_000, 1_500_000_000, 3_000_000_000
JOBS_AT_MOST = 4
# The part of a proof that one process does, and no further job shares.
ALONE = 0.2


@dataclass(frozen=True)
class Lanes:
    """How many crates go at once, how many jobs one may have, and for how many more is memory."""

    processors: int
    crates: int
    jobs: int
    further: int


def lanes(processors: int, memory: int, asked: int | None = None, each: int = A_CRATE) -> Lanes:
    """A lane for each processor, as far as memory holds them, or as many as were asked for."""
    crates = asked or max(1, min(processors, memory // each))
    used = min(asked or processors, processors)
    return Lanes(used, crates, min(used, JOBS_AT_MOST), max(0, (memory - crates * each) // A_JOB))


@dataclass
class Plan:
    """The crates to prove, each after those that it stands on, and the seconds that each takes."""

    below: Libraries
    seconds: Mapping[str, float]
    lanes: Lanes
    done: set[str] = field(default_factory=set)
    running: dict[str, tuple[float, int]] = field(
        default_factory=dict
    )  # when it began, and its jobs

    def left(self) -> list[str]:
        return [it for it in self.below if it not in self.done and it not in self.running]

    def left_of(self, crate: str, now: float) -> float:
        """The seconds that a crate may still take: at least a tenth of them until it has ended."""
        if crate in self.done:
            return 0.0
        began, _ = self.running.get(crate, (now, 0))
        return max(self.seconds[crate] / 10, self.seconds[crate] - (now - began))

    def behind(self, now: float) -> dict[str, float]:
        """For each crate that has not ended, the seconds of the longest chain from it on."""
        behind: dict[str, float] = {}
        for crate in reversed([it for it in self.below if it not in self.done]):
            above = (seconds for it, seconds in behind.items() if crate in self.below[it])
            behind[crate] = self.left_of(crate, now) + max(above, default=0.0)
        return behind

    def next(self, now: float) -> list[tuple[str, int]]:
        """The crates that may begin now, with their jobs; they count as running from now on."""
        behind = self.behind(now)
        ready = [it for it in self.left() if self.done.issuperset(self.below[it])]
        ready.sort(key=lambda it: (-behind[it], it))
        begun = []
        for at, crate in enumerate(ready[: self.lanes.crates - len(self.running)]):
            idle = self.lanes.crates - len(self.running)
            is_longest = behind[crate] == max(behind.values())
            wanted = self.lanes.jobs if is_longest else idle // (len(ready) - at)
            further = self.lanes.further - sum(jobs - 1 for _, jobs in self.running.values())
            jobs = max(1, min(wanted, self.lanes.jobs, 1 + further))
            self.running[crate] = now, jobs
            begun.append((crate, jobs))
        return begun

    def end(self, crate: str) -> None:
        del self.running[crate]
        self.done.add(crate)

    def seconds_left(self, now: float) -> float:
        """How long the rest may take here, by the seconds that the crates are said to take."""
        work = sum(self.left_of(it, now) for it in self.below)
        return expected(work, max(self.behind(now).values(), default=0.0), self.lanes)


def expected(work: float, chain: float, of: Lanes) -> float:
    """The seconds that work takes, with its longest chain. No lane is busy all the time."""
    at_once = min(of.processors, of.crates + of.further)
    return (
        max(work / at_once, chain * (ALONE + (1 - ALONE) / min(of.jobs, 1 + of.further)))
        + 0.07 * chain
    )
