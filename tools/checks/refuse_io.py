"""Each read of standard input and each write of standard output fails in turn, one a run.

If a read fails, the program must end with status 3 and `read fault` on standard error, and write
nothing. If a write fails, it must end with status 4 and `write fault`. What it wrote must be a
prefix of an output. With no workers that is the stored output. With workers, its whole lines must
be a prefix of a legal history and of the lines that follow from it, and `verify` must agree.

Then the same calls move one byte each and do not fail, which no output shows. A run that makes
fewer calls must give the stored output.
"""

from collections.abc import Iterable, Iterator
from pathlib import Path

from tests import model_history
from tools.checks import refusing
from tools.checks import workers as runs
from tools.checks.tally import Tally

# The runs of each check: a case, with no workers and with two.
SMALL = ("runs/two_texels", "large/generated_200_1")
CASES = ("runs/two_texels", "runs/empty_script", "waits/guard_and_release", "waits/names",
         "lost/buckets", "results/results", "refused/bad_value", "large/generated_200_1",
         "large/largest_command")
FAULTS = {"read": (3, b"read fault\n"), "write": (4, b"write fault\n")}


class Trial:
    """A stored case with its numbers of workers and viewers."""

    def __init__(self, case: runs.Case, workers: int, viewers: int) -> None:
        self.case, self.workers, self.viewers = case, workers, viewers
        self.words = runs.words_of(workers, viewers) if workers else ["run"]
        self.name = f"{case.name} with {runs.threads_of(workers, viewers)}"

    def fault(
        self, refuse: refusing.Refusing, call: str, short: bool, ran: runs.Ran, came: bool
    ) -> str | None:
        """The fault of a run, or None."""
        if ran.status is None:
            return refuse.shown(ran)
        if short or not came:
            return self.fault_of_whole(refuse, ran)
        if (ran.status, ran.fault) != FAULTS[call]:
            return refuse.shown(ran)
        if call == "read":
            return "something was written" if ran.output else None
        return self.fault_of_front(refuse, ran.output)

    def fault_of_whole(self, refuse: refusing.Refusing, ran: runs.Ran) -> str | None:
        """The fault of a run in which nothing failed."""
        case = self.case
        if self.workers == 0 or case.status not in (0, 1):
            same = (ran.status, ran.output, ran.fault) == (case.status, case.output, case.fault)
            return None if same else f"{refuse.shown(ran)}, and not as it is stored"
        return runs.fault_of_end(ran) or runs.fault_of_output(
            refuse.program, case.script, case.reader, ran.output, self.viewers
        )

    def fault_of_front(self, refuse: refusing.Refusing, output: bytes) -> str | None:
        """The fault of an output whose write failed."""
        if self.workers == 0:
            return (
                None
                if self.case.output.startswith(output)
                else "what was written is no front of what the case gives"
            )
        lines = output[:output.rfind(b"\n") + 1]
        try:
            whole = model_history.judged_front(self.case.reader, lines)
        except model_history.Wrong as wrong:
            return f"what was written: {wrong}"
        if whole is None:
            return None
        ran = runs.run(
            refuse.program, ["verify"], runs.journal_input(self.case.script, lines), refuse.seconds
        )
        wanted = 0 if whole else 10
        if ran.status == wanted:
            return None
        return f"verify ends with {ran.status} on what was written, and {wanted} is due"


def faults_of(trial: Trial, refuse: refusing.Refusing, tally: Tally) -> Iterator[tuple[str, str]]:
    """The faults of the runs in which each call fails in turn."""
    counts: list[int] = []
    for call, short in (("read", False), ("write", False), ("read", True), ("write", True)):
        counts.append(0)
        for number, ran, came in refuse.each(trial.words, trial.case.script, call, short):
            counts[-1] += came
            if (fault := trial.fault(refuse, call, short, ran, came)) is not None:
                yield (
                    f"{call}{' of one byte' if short else ''}, "
                    f"{refusing.name_of(number, came)}", fault
                )
    if not counts[0] or not counts[2]:
        yield "all reads", "none came, so nothing was tried"
    tally.note(f"{trial.name}: {counts[0]} reads and {counts[1]} writes failed, one a run; "
               f"{counts[2]} reads and {counts[3]} writes moved one byte")


def tell(
    top: Path,
    program: Path,
    tally: Tally,
    asked: Iterable[tuple[str, int, int]],
    seconds: float = refusing.SECONDS,
) -> None:
    """Reports the faults of each case with its numbers of workers and viewers."""
    with refusing.ready(top, program, tally, "failing reads and writes", seconds) as refuse:
        for name, workers, viewers in asked:
            if refuse is None:
                break
            trial = Trial(runs.Case(top, name, whole=True), workers, viewers)
            tally.tell_all(
                f"failing reads and writes of {trial.name}", faults_of(trial, refuse, tally)
            )


def check(top: Path, program: Path, tally: Tally) -> None:
    tell(top, program, tally, [(name, workers, 0) for name in SMALL for workers in (0, 2)])


def check_large(top: Path, program: Path, tally: Tally) -> None:
    tell(top, program, tally, [(name, workers, 0) for name in CASES for workers in (0, 2, 4)])
