"""Runs the built program on whole inputs, and checks the texts and names of the documents.

    tools/check                   all parts of tools/checks/, but those that take long
    tools/check --list            the parts, how many seconds each usually takes, and what it checks
    tools/check --program PATH    the same with another program, which may be of any age
    tools/check --only PART ..    some parts alone: cases, documents, workers, traces, pages, ..
    tools/check --large           the same in a large size, which takes long: more refused calls,
                                  hostile runs and costs, and the part greatest; with --only, of
                                  some parts
    tools/check --selftest        shows on a copy of the repository that this check finds faults;
                                  with --only workers the faults of this part alone, with no copy

Each part is a module of tools/checks/, which says at its head what it checks. The parts run side by
side, one for each processor, the slowest first. As a part ends, a line says how many items passed
and failed, and the seconds by the clock and of a processor; the latter do not count what else this
machine does. On a terminal one line says how far the check is. A part that fails beside others is
tried once more by itself after all others, and only that counts.

Most cases of `run` are run with 1, 2, 4 and 8 workers too, and 200 random ones with 1 and 4, some
of them with viewers. Such a run may print one of many histories. tools/checks/workers.py checks it
by `verify`, by tests/model_history.py, and by what is fixed for the case.

A check whose own tool is missing, as Chromium or a C compiler, is skipped with a line that says so.
The last lines name each item that failed once more, and then come 'N passed, N failed'. The status
is 1 if anything failed.
"""

import argparse
import os
import signal
import sys
from pathlib import Path

from tools import checks
from tools.checks import side_by_side, whole
from tools.checks.tally import Tally
from tools.places import PROGRAM, TOP

OF_ALL = {**checks.OF_SOURCES, **checks.FIRST, **checks.PARTS}


def parse() -> argparse.Namespace:
    parser = argparse.ArgumentParser(
        prog="tools/check",
        description="Runs the program on whole inputs, and checks what the documents say.",
    )
    parser.add_argument("--list", action="store_true",
                        help="the parts, their usual seconds, and what they check")
    parser.add_argument("--program", type=lambda text: Path(text).resolve(),
                        help="a program to run in place of the built one")
    parser.add_argument("--only", metavar="PART", nargs="+", choices=(*OF_ALL, *checks.ASIDE),
                        help="some parts of the checks")
    parser.add_argument("--large", action="store_true", help="in a large size, which takes long")
    parser.add_argument(
        "--selftest", action="store_true", help="show on a copy that faults are found"
    )
    asked = parser.parse_args()
    if asked.selftest and (asked.only not in (None, ["workers"]) or asked.large):
        parser.error("--selftest goes with no part but workers, and has one size")
    return asked


def check_parts(asked: argparse.Namespace, tally: Tally) -> None:
    """Runs the parts that are asked for: one in this process, and more side by side."""
    usual = {**OF_ALL, **checks.ASIDE}
    names = asked.only or (*OF_ALL, *(checks.ASIDE if asked.large else ()))
    program = asked.program or TOP / PROGRAM
    if not asked.only and asked.program is None and not whole.is_fresh(TOP, tally):
        names = tuple(checks.OF_SOURCES)
    if asked.only and not program.exists():
        tally.tell(str(program), "it is missing: run tools/build")
    elif len(names) == 1:
        checks.check(TOP, program, tally, names, asked.large)
    else:
        words = ["--program", str(program), *(["--large"] if asked.large else [])]
        side_by_side.run_all(
            {name: usual[name] for name in names},
            lambda part: [str(TOP / "tools/check"), "--only", part, *words],
            tally, len(os.sched_getaffinity(0)),
        )


def main() -> int:
    asked = parse()
    if asked.list:
        print("\n".join(checks.listed({**OF_ALL, **checks.ASIDE})))
        return 0
    if asked.selftest:
        return whole.selftest(asked.program, bool(asked.only)).end()
    tally = Tally(talkative=asked.large)
    check_parts(asked, tally)
    return tally.end()


if __name__ == "__main__":
    signal.signal(signal.SIGTERM, signal.default_int_handler)  # as Ctrl-C, so that nothing is left
    try:
        sys.exit(main())
    except KeyboardInterrupt:
        sys.exit(128 + signal.SIGINT)
