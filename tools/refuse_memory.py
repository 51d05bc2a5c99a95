"""Runs the built program with one refused allocation, for each of its allocations in turn.

    tools/refuse_memory [--program PATH] [CASE ..]
    tools/refuse_memory --workers N [--views V] [--program PATH] [--seconds 60] [CASE ..]

CASE is a case of tests/cases without its ending, as waits/guard_and_release; --views is for the
case that has viewers. tools/checks/refuse_memory.py has the checks, and tools/check runs few cases.
A run that takes longer than a minute, or than --seconds, has failed. The status is 1 if anything
failed, or if a C compiler is missing.
"""

import argparse
import sys
from pathlib import Path

from tools.checks import refuse_memory
from tools.checks.tally import Tally
from tools.places import PROGRAM, TOP


def main() -> int:
    parser = argparse.ArgumentParser(
        prog="tools/refuse_memory", description="Refuses each allocation of the program in turn."
    )
    parser.add_argument("--program", type=lambda text: Path(text).resolve(), default=TOP / PROGRAM)
    parser.add_argument("--workers", type=int, choices=range(1, 9), default=0,
                        help="run the cases with so many workers")
    parser.add_argument("--views", type=int, choices=range(1, 5), default=2,
                        help="and the case that has viewers with so many")
    parser.add_argument("--seconds", type=int, default=60, help="how long a run may take")
    parser.add_argument("cases", nargs="*")
    asked = parser.parse_args()
    names = asked.cases or (
        refuse_memory.CASES_WITH_WORKERS if asked.workers else refuse_memory.CASES
    )
    tally = Tally(talkative=True)
    refuse_memory.tell(TOP, asked.program, tally,
                       [(name, asked.workers, asked.views) for name in names], asked.seconds)
    return tally.end() or int(tally.passed == 0)


if __name__ == "__main__":
    sys.exit(main())
