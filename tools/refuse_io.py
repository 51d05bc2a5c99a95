"""Runs the built program with one failing read or write, for each of them in turn.

    tools/refuse_io [--program PATH] [--workers N] [--views V] [--seconds 60] [CASE ..]

CASE is a case of tests/cases without its ending, as waits/guard_and_release. It is run with no
workers, and with two or with --workers N; --views adds viewers to the latter.
tools/checks/refuse_io.py has the checks, and tools/check runs few cases. A run that takes longer
than a minute, or than --seconds, has failed. The status is 1 if anything failed, or if a C compiler
is missing.
"""

import argparse
import sys
from pathlib import Path

from tools.checks import refuse_io
from tools.checks.tally import Tally
from tools.places import PROGRAM, TOP


def main() -> int:
    parser = argparse.ArgumentParser(
        prog="tools/refuse_io",
        description="Has each read and each write of the program go wrong in turn.",
    )
    parser.add_argument("--program", type=lambda text: Path(text).resolve(), default=TOP / PROGRAM)
    parser.add_argument("--workers", type=int, choices=range(1, 9), default=2)
    parser.add_argument("--views", type=int, choices=range(5), default=0)
    parser.add_argument("--seconds", type=int, default=60, help="how long a run may take")
    parser.add_argument("cases", nargs="*")
    asked = parser.parse_args()
    tally = Tally(talkative=True)
    trials = [(name, *threads) for name in asked.cases or refuse_io.CASES
              for threads in ((0, 0), (asked.workers, asked.views))]
    refuse_io.tell(TOP, asked.program, tally, trials, asked.seconds)
    return tally.end() or int(tally.passed == 0)


if __name__ == "__main__":
    sys.exit(main())
