"""The greatest cases with workers, each of some seconds to some minutes, for `--only greatest`.

They have as many events, flushes, actions, fetched words and texels as there may be. Each is judged
as tools/checks/workers.py judges others. `verify` judges those whose script and output fit into one
input.
"""

from pathlib import Path

from tools.checks import workers
from tools.checks.tally import Tally

CASES = ("large/flushes_of_one", "large/flushes_of_sixteen", "large/largest_images",
         "large/most_actions", "large/most_events", "large/quota")
RUNS = ((1, 0), (2, 0), (8, 0), (2, 1))  # workers and viewers


def check(top: Path, program: Path, tally: Tally) -> None:
    for name in CASES:
        case = workers.Case(top, name)
        workers.tell_runs(program, tally, [(case, count, viewers) for count, viewers in RUNS])
