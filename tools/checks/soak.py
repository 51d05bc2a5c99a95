"""Hostile scripts that are run with workers, and the checks of each output.

A run is over the script of a seed (tests/hostile.py makes it), with 1 to 8 workers in turn. Each
second round of eight runs has viewers, 1 to 4 of them from one such round to the next. The threads
act differently each time. tools/checks/workers.py must accept each output: it ends as its journal
says and not out of memory; `verify` says yes and shows its picture; the model finds a legal and
complete history, from which all other lines follow, with all looks of viewers. Then a line of the
journal is changed, taken out, doubled or moved, and `verify` must agree with the model about it.

The script, the output and the fault of each failure are kept in a folder, a new one where none is
given.
"""

import os
import tempfile
from collections import Counter, deque
from collections.abc import Iterable, Iterator
from concurrent.futures import Executor, Future, ThreadPoolExecutor
from dataclasses import replace
from pathlib import Path

from tests import hostile, model, model_history
from tests.model_script import Reader
from tools.checks import workers as runs
from tools.checks.tally import Tally

Given = tuple[bytes, int, int, int]  # a script, its workers, its viewers, its seed
SMALL, LARGE = 40, 2000  # runs, from the first seed on
SECONDS = 60
CHANGED_AT_MOST = 600

COUNTS = {
    "events": "events",
    "newer words": "words newer than their flush",
    "torn commands": "commands of no one moment",
    "early orders": "orders before the finish that was awaited",
    "late orders": "orders after a finish that was not awaited",
    "late dumps": "dumps of a later result",
    "looks": "looks of viewers",
    "early looks": "of them before the last event",
    "looks between": "of these after the first",
    "ended waits": "ended waits",
    "closed": "streams closed",
    "lost": "streams lost",
}


def counts_of(history: model_history.History) -> Counter[str]:
    return Counter({
        "events": len(history.events), "newer words": history.newer_words,
        "torn commands": history.torn_commands,
        "early orders": history.early_orders, "late orders": history.late_orders,
        "late dumps": history.late_dumps,
        "looks": history.looks.all, "early looks": history.looks.early,
        "looks between": history.looks.between,
        "ended waits": len(history.endings),
        "closed": sum(s.gone == "closed" for s in history.streams),
        "lost": sum(s.gone not in (None, "closed") for s in history.streams)})


class Attempt:
    """A run of a script with `workers` and `viewers`, its fault, and its counts."""

    def __init__(
        self,
        program: Path,
        script: bytes,
        workers: int,
        viewers: int,
        seed: int,
        seconds: float = SECONDS,
    ) -> None:
        self.program, self.seconds = program, seconds
        self.script, self.workers, self.viewers, self.seed = script, workers, viewers, seed
        self.ran = runs.run(program, runs.words_of(workers, viewers), script, seconds)
        self.counts: Counter[str] = Counter()
        self.fault = self.find()

    def __str__(self) -> str:
        return runs.threads_of(self.workers, self.viewers)

    def find(self) -> str | None:
        """The first thing that is wrong, or None."""
        if (fault := runs.fault_of_end(self.ran)) is not None:
            return f"its end: {fault}"
        if self.ran.status == 8:
            return "its end: streams were lost for want of memory"
        answer, picture = runs.faults_of_verify(
            self.program, self.script, self.ran.output, self.seconds
        )
        if answer or picture:
            return f"verify: {answer or picture}"
        reader = Reader(self.script)
        try:
            history = model_history.judged(reader, self.ran.output, self.viewers)
        except model_history.Wrong as wrong:
            return f"the model: {wrong}"
        self.counts = counts_of(history)
        fault = self.fault_of_changed(reader, history.events)
        return f"a changed journal: {fault}" if fault else None

    def fault_of_changed(self, reader: Reader, events: list[str]) -> str | None:
        """How `verify` and the model differ about a journal with a changed line."""
        if not 0 < len(events) <= CHANGED_AT_MOST:
            return None
        changed = change(events, hostile.Draw(self.seed * 8 + self.workers))
        before = model.head(model_history.History(reader))
        journal = "".join(line + "\n" for line in before + changed).encode()
        wanted, told = model_history.verdict(reader, changed)
        if isinstance(told, int):
            line = self.script.count(b"\n") + 1 + len(before) + told
            told = f"refused: journal line {line}"
        ran = runs.run(
            self.program, ["verify"], runs.journal_input(self.script, journal), self.seconds
        )
        said = ran.fault.decode("latin-1").strip()
        if (ran.status, said) != (wanted, told):
            self.ran = replace(self.ran, output=journal)
            return (
                f"verify ends with {ran.status} and {said!r}, and the model with {wanted} and "
                f"{told!r}"
            )
        return None

    def keep(self, folder: Path) -> Path:
        """Writes the facts of a failure to files of one name."""
        base = folder / f"{self.seed}-{self.workers}"
        base.with_suffix(".script").write_bytes(self.script)
        base.with_suffix(".stdout").write_bytes(self.ran.output)
        base.with_suffix(".stderr").write_bytes(self.ran.fault)
        base.with_suffix(".fault").write_text(f"{self}: {self.fault}\n")
        return base


def change(events: list[str], draw: hostile.Draw) -> list[str]:
    """The lines of a journal with one of them changed, taken out, doubled or moved."""
    at, kind = draw.below(len(events)), draw.below(4)
    if kind == 0:
        line = list(events[at])
        digits = [place
                  for place, character in enumerate(line)
                  if character in "0123456789abcdef" and place > 5]
        line[draw.of(digits)] = draw.of("0123456789")
        return events[:at] + ["".join(line)] + events[at + 1:]
    rest = events[:at] + events[at + 1:]
    if kind == 1:
        return rest
    to = draw.below(len(rest) + 1) if draw.chance(50) else min(at + 1, len(rest))
    return (
        (events if kind == 2 else rest)[:to] + [events[at]] + (events if kind == 2 else rest)[to:]
    )


# --- Many runs ---


def in_order(
    pool: Executor, jobs: int, program: Path, attempts: Iterable[Given], seconds: float
) -> Iterator[Attempt]:
    """The attempts in their order, with few of them begun ahead."""
    begun: deque[Future[Attempt]] = deque()
    for given in attempts:
        begun.append(pool.submit(Attempt, program, *given, seconds))
        if len(begun) > jobs:
            yield begun.popleft().result()
    while begun:
        yield begun.popleft().result()


def threads_of(
    seed: int, workers: int | None = None, viewers: int | None = None
) -> tuple[int, int]:
    """The workers and viewers of a seed, where none are asked for; no workers, no viewers."""
    workers = 1 + seed % 8 if workers is None else workers
    viewers = (1 + seed // 16 % 4 if seed // 8 % 2 else 0) if viewers is None else viewers
    return workers, viewers if workers else 0


def soak(
    program: Path,
    attempts: Iterable[Given],
    tally: Tally,
    jobs: int = 1,
    seconds: float = SECONDS,
    folder: Path | None = None,
) -> None:
    """Reports each attempt (a script, workers, viewers and a seed) and the counts of all of them.

    An interrupt ends the runs.
    """
    total: Counter[str] = Counter()
    with ThreadPoolExecutor(jobs) as pool:
        try:
            for attempt in in_order(pool, jobs, program, attempts, seconds):
                total += attempt.counts
                fault = attempt.fault
                if fault is not None:
                    folder = folder or Path(tempfile.mkdtemp(prefix="zorvleid-soak-"))
                    folder.mkdir(parents=True, exist_ok=True)
                    fault = f"{fault} ({attempt.keep(folder)}.*)"
                tally.tell(f"seed {attempt.seed} with {attempt}", fault)
        except KeyboardInterrupt:
            pool.shutdown(cancel_futures=True)
    told = ", ".join(f"{total[name]:,} {what}" for name, what in COUNTS.items())
    tally.note(f"{tally.passed + tally.failed} runs, {tally.failed} failed; {told}")


def check(top: Path, program: Path, tally: Tally, count: int = SMALL) -> None:
    attempts = (
        (hostile.script(seed).encode(), *threads_of(seed), seed) for seed in range(1, count + 1)
    )
    soak(program, attempts, tally, os.cpu_count() or 1)


def check_large(top: Path, program: Path, tally: Tally) -> None:
    check(top, program, tally, LARGE)
