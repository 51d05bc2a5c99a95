"""Each allocation of a run is refused in turn, one a run.

The program must end with status 6, `no memory` on standard error and no output. A run that makes
fewer allocations must give the stored output.

A run with workers may end in two more ways:

- with status 8, if the journal loses a stream for memory; tools/checks/workers.py must accept that
  output, and each other one
- as if nothing was refused, if the allocation was for a thread, or for a list that is collected:
  the work is then done without the thread, and the list asks again as it grows

There is a thread for each worker and each stream, so at most twice as many runs end in the second
way. With viewers a run may also end so if the allocation was for their view, which then stays as it
was for a while; those runs are not counted. The Nth allocation, and how many there are, differ from
run to run with workers.

A program with an address sanitizer allocates by other calls, so this check is not for it.
"""

from collections.abc import Iterable, Iterator
from pathlib import Path

from tests.model_script import Reader
from tools.checks import refusing
from tools.checks import workers as runs
from tools.checks.tally import Tally

# The runs of each check: a case, with its numbers of workers and viewers.
SMALL = (("runs/two_texels", 0, 0), ("waits/guard_and_release", 0, 0), ("lost/buckets", 0, 0),
         ("runs/two_texels", 2, 0), ("waits/compositor", 2, 0), ("runs/views", 2, 2))
CASES = ("runs/two_texels", "waits/guard_and_release", "waits/rounds_of_guards", "lost/buckets",
         "random/158", "results/results", "words/check", "words/generate", "words/trial",
         "verify/guard_and_release", "verify/names")
CASES_WITH_WORKERS = ("runs/two_texels", "waits/guard_and_release", "lost/buckets",
                      "waits/compositor", "results/results",
                      "runs/views")
NO_MEMORY = (6, b"", b"no memory\n")
PAST_THE_LAST = 8


class Case:
    """A stored case on one thread, which gives the stored output or ends out of memory."""

    past_the_last = 1
    most_going_on: int | None = 0

    def __init__(self, top: Path, name: str) -> None:
        def part(ending: str, default: bytes = b"") -> bytes:
            path = top / runs.CASES / f"{name}{ending}"
            return path.read_bytes() if path.exists() else default

        self.name, self.script = name, part(".script")
        self.words = part(".words", b"run\n").decode().splitlines()
        self.wanted = (int(part(".status", b"0")), part(".stdout"), part(".stderr"))

    def fault(self, refuse: refusing.Refusing, ran: runs.Ran, came: bool) -> str | None:
        """The fault of a run, or None."""
        wanted = NO_MEMORY if came else self.wanted
        return None if (ran.status, ran.output, ran.fault) == wanted else refuse.shown(ran)


class CaseWithWorkers(Case):
    """A case that is run with workers, and perhaps viewers; its outputs are judged."""

    past_the_last = PAST_THE_LAST

    def __init__(self, top: Path, name: str, workers: int, viewers: int) -> None:
        super().__init__(top, name)
        self.viewers = viewers if "--views" in self.words else 0
        self.name = f"{name} with {runs.threads_of(workers, self.viewers)}"
        self.words, self.reader = runs.words_of(workers, self.viewers), Reader(self.script)
        self.most_going_on = None if self.viewers else 2 * (workers + len(self.reader.plans))

    def fault(self, refuse: refusing.Refusing, ran: runs.Ran, came: bool) -> str | None:
        if ran.status is None:
            return refuse.shown(ran)
        if came and (ran.status, ran.output, ran.fault) == NO_MEMORY:
            return None
        fault = runs.fault_of_end(ran)
        if fault or (ran.status == 8 and not came):
            return fault or refuse.shown(ran)
        return runs.fault_of_output(
            refuse.program, self.script, self.reader, ran.output, self.viewers, refuse.seconds
        )


def faults_of(case: Case, refuse: refusing.Refusing, tally: Tally) -> Iterator[tuple[str, str]]:
    """The faults of the runs in which each call is refused in turn."""
    refused = lost = went_on = 0
    for number, ran, came in refuse.each(
        case.words, case.script, "memory", past_the_last=case.past_the_last
    ):
        refused, lost, went_on = (
            refused + came,
            lost + (came and ran.status == 8),
            went_on + (came and ran.status in (0, 1)),
        )
        if (fault := case.fault(refuse, ran, came)) is not None:
            yield refusing.name_of(number, came), fault
    if refused == 0:
        yield "all calls", "none takes memory, so nothing was tried"
    if case.most_going_on is not None and went_on > case.most_going_on:
        yield (
            "all calls", f"{went_on} runs ended as if nothing was refused, and "
                         f"{case.most_going_on} may"
        )
    tally.note(
        f"{case.name}: {refused} calls refused, one a run; {lost} lost a stream, {went_on} went on"
    )


def tell(
    top: Path,
    program: Path,
    tally: Tally,
    asked: Iterable[tuple[str, int, int]],
    seconds: float = refusing.SECONDS,
) -> None:
    """Reports the faults of each case with its numbers of workers and viewers."""
    with refusing.ready(top, program, tally, "refused allocations", seconds) as refuse:
        for name, workers, viewers in asked:
            if refuse is None:
                break
            case = CaseWithWorkers(top, name, workers, viewers) if workers else Case(top, name)
            tally.tell_all(f"refused allocations of {case.name}", faults_of(case, refuse, tally))


def check(top: Path, program: Path, tally: Tally) -> None:
    tell(top, program, tally, SMALL)


def check_large(top: Path, program: Path, tally: Tally) -> None:
    tell(top, program, tally, [(name, 0, 0) for name in CASES])
    tell(top, program, tally,
         [(name, workers, 2) for workers in (1, 2, 4) for name in CASES_WITH_WORKERS])
