"""The parts of tools/check: each module has check(top, program, tally).

A module that can do more has check_large too. A check whose own tool is missing is skipped, with a
line that says so.
"""

import importlib
from collections.abc import Iterable, Iterator, Mapping
from pathlib import Path

from tools.checks.tally import Tally

# The parts, and how many seconds of a processor each usually takes.
OF_SOURCES = {"bodies": 1, "crates": 1, "derives": 2, "names": 3, "uses": 4,
              "widths": 1}  # they need no program
FIRST = {"cases": 8, "documents": 1, "tour": 1}
PARTS = {
    "workers": 10,
    "refuse_memory": 2,
    "refuse_io": 9,
    "soak": 3,
    "costs": 4,
    "memory": 1,
    "pictures": 2,
    "traces": 149,
    "mutations": 1,
    "judging": 30,
    "explaining": 9,
    "replays": 5,
    "logs": 8,
    "losses": 8,
    "comparing": 2,
    "answers": 30,
    "stats": 7,
    "states": 11,
    "trimming": 7,
    "reducing": 8,
    "races": 40,
    "showing": 12,
    "many": 9,
    "costing": 15,
    "command_lines": 98,
    "safe_files": 14,
    "two_files": 7,
    "cut_outputs": 6,
    "manual": 1,
    "releases": 4,
    "pages": 12,
    "page_parts": 4,
    "building": 17,
    "previews": 4,
    "times": 1,
    "assembling": 34,
    "packaging": 11,
    "recording": 5,
    "prose": 1,
    "readme": 1,
    "figures": 1,
    "agreeing": 1,
    "sizes": 1,
    "typed_python": 13,
    "checking": 3,
    "wrong_calls": 1,
    "linting": 5,
    "manners": 4,
}
# parts that take long, and come only where they or the large size are asked for
ASIDE = {"greatest": 300}


def check(
    top: Path, program: Path, tally: Tally, parts: Iterable[str], is_large: bool = False
) -> None:
    """Checks some parts of a repository with a program."""
    for part in parts:
        module = importlib.import_module(f"tools.checks.{part}")
        run = getattr(module, "check_large", module.check) if is_large else module.check
        run(top, program, tally)


def listed(usual: Mapping[str, int]) -> Iterator[str]:
    """A line for each part, those that usually take longest first, and one for all of them."""
    width = max(map(len, usual))
    yield f"{'part':{width}}  seconds  what it checks"
    for part in sorted(usual, key=lambda it: -usual[it]):
        says = importlib.import_module(f"tools.checks.{part}").__doc__ or ""
        yield f"{part:{width}}  {usual[part]:7}  {says.splitlines()[0]}"
    all_of_them = sum(seconds for part, seconds in usual.items() if part not in ASIDE)
    yield (f"{'all':{width}}  {all_of_them:7}  seconds of a processor, "
           f"but for {', '.join(ASIDE)}, which --large adds")
