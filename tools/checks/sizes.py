"""Checks how large the bodies of functions are that the toolchain proves.

A proof's own part grows with the statements of a body, and at each of them with the values that
live. So the size of a function here is the product of both: of its assignments and of its locals,
in the code of the built libraries, where each `?` has become statements. A size of a thousand took
from 1 to 15 seconds of a processor, by how deep the types are. A function larger than MOST must
be in LARGE, which has the size that it may have. Libraries that are not built are left out.
"""

import json
import tempfile
from collections.abc import Iterator
from pathlib import Path

from tools.checks.tally import Tally

MOST = 5_000
CODE = "crates/*/out/rlib/*.rlib/toolchain/mir.json"  # from the top
LARGE = {
    "gpu_threads::parts::Parts::push": 5_400,
    "house_core::core_of::Core::make": 6_300,
    "journal_verify::ruling::follow": 14_720,
    "journal_verify::verifying::verify": 5_200,
    "script_answers::fault::FaultDisplay::fmt": 10_600,
    "script_laws::line::trial_text": 5_200,
    "script_lines::keyword::keyword_of": 5_200,
    "verify_input::whole::judge_all": 9_900,
}


def sizes_in(code: Path) -> Iterator[tuple[str, int]]:
    """The name and the size of each function of a library."""
    for name, function in json.loads(code.read_text(encoding="utf-8")):
        assignments = json.dumps(function["body"]).count('"Assign"')
        yield name, assignments * len(function["locals"])


def faults_in(code: Path) -> Iterator[tuple[str, str | None]]:
    """The functions of a library that are too large, and those of LARGE."""
    for name, size in sizes_in(code):
        if size > LARGE.get(name, MOST):
            yield name, f"its size is {size}: part it, or let it take less by `?`"
        elif name in LARGE:
            small = f"its size is {size}: remove it from LARGE"
            yield name, small if size <= MOST else None


def check_made(tally: Tally) -> None:
    """A library that is made here, with a function of each kind."""
    kinds = {"small": (70, 70), "large": (72, 70), "journal_verify::ruling::follow": (100, 100),
             "verify_input::whole::judge_all": (2, 2)}
    made = [[name, {"locals": [{}] * values, "body": [{"Assign": []}] * count}]
            for name, (count, values) in kinds.items()]
    with tempfile.TemporaryDirectory() as folder:
        code = Path(folder) / "mir.json"
        code.write_text(json.dumps(made), encoding="utf-8")
        found = [name for name, fault in faults_in(code) if fault]
    wanted = ["large", "verify_input::whole::judge_all"]
    tally.tell("the sizes of a made library", None if found == wanted else f"it finds {found}")


def check(top: Path, _program: Path, tally: Tally) -> None:
    check_made(tally)
    for code in sorted(top.glob(CODE)):
        name = code.parent.parent.stem
        try:
            faults = list(faults_in(code))
        except (ValueError, TypeError, KeyError):
            tally.skip(f"the sizes of {name}", "this toolchain writes code in another form")
            continue
        tally.tell_all(f"the sizes of {name}", [it for it in faults if it[1]])
