"""What `check --cost` says of ten large scripts, against real runs of them.

The number of events is that of the run, and for cases that of tests/model_run.py. The seconds of a
processor and the peak of the memory are at most twice, and at least half, those of the run. Memory
below 9 MiB is not measured: that much the process has that starts the run. A busy machine gets more
tries, and the least of what they expect is compared with the least that they take.
"""

import math
import re
import tempfile
from collections.abc import Iterator
from pathlib import Path

from bench import greatest, measure
from bench.run import crossing_waits, drawing, put_lines, value_lines
from tests import model
from tests.model_run import Run
from tests.model_script import Reader, Refused
from tools.checks import answers
from tools.checks.tally import Tally
from view import cost
from view.script import Script

SAID = re.compile(r"a run on one thread: about ([\d,]+) events, ([\d,]+) MiB of memory, "
                  r"([\d.e-]+) seconds")
FACTOR, TRIES, FLOOR = 2, 6, 9
OUTPUT = re.compile(rb"^(?:order|step|finish|lost|close) ", re.MULTILINE)
LONGEST = 20_000
# Some of the greatest scripts, and the part of each that is run.
GREATEST = {"ClearRect of one texel": 1, "CopyRect of all texels": 6,
            "UploadBucket of all bytes": 4, "CreateBuffer and DeleteBuffer": 4,
            "SetToken": 2}


def check(top: Path, program: Path, tally: Tally) -> None:
    """Reports each cost that is wrong."""
    scripts = list(scripts_of())
    tally.tell("large scripts with a cost", None if len(scripts) == 10 else "they are not ten")
    with tempfile.TemporaryDirectory() as folder:
        for name, text in scripts:
            tally.tell(f"the cost of {name}", fault_of(top, program, text, Path(folder)))
    for path in sorted((top / "tests/cases").rglob("*.script")):
        if path.with_suffix(".words").exists() or path.stat().st_size > LONGEST:
            continue
        try:
            reader = Reader(path.read_bytes())
        except Refused:
            continue
        got = cost.sketch_of(Script(path.read_bytes().decode("latin-1").split("\n"))).events
        wanted = len(Run(reader).events)
        is_near = wanted / FACTOR <= got <= FACTOR * wanted
        tally.tell(f"the events of {path.stem}",
                   None if is_near else f"{got} are expected, and there are {wanted}")
    ran = answers.called(top, program, ["check", "--cost", "no\nfile"])
    tally.tell("check --cost, which is refused", None if ran.returncode == 3 else str(ran))


def scripts_of() -> Iterator[tuple[str, str]]:
    """The name and the text of each large script."""
    yield "a generated script", model.generate(2000, 1)
    for name, part in GREATEST.items():
        yield name, dict(greatest.commands(part))[name]
    yield "flushes that wait for each other", crossing_waits(2)
    yield "clears, copies and uploads", drawing(2, 12)
    yield "put lines", put_lines(200_000)
    yield "lines of values", value_lines(200)


def fault_of(top: Path, program: Path, text: str, folder: Path) -> str | None:
    """What is wrong with the cost of a script."""
    given, written = folder / "given", folder / "written"
    given.write_text(text)
    fault: str | None = None
    expected = taken = math.inf
    for _ in range(TRIES):
        ran = answers.called(top, program, ["check", "--cost", str(given)])
        found = SAID.fullmatch(ran.stdout.decode().split("\n")[1]) if not ran.returncode else None
        if found is None:
            return str(ran)
        _, memory, _ = measure.run_once([program, "run"], given, written)
        events = len(OUTPUT.findall(written.read_bytes()))
        if int(found[1].replace(",", "")) != events:
            return f"{found[1]} events are expected, and there are {events}"
        expected = min(expected, float(found[3]))
        taken = min(taken, cost.seconds_of(program, ["run"], text))
        fault = fault_of_numbers(int(found[2].replace(",", "")), expected, memory, taken)
        if fault is None:
            return None
    return fault


def fault_of_numbers(
    memory: float, seconds: float, real_memory: float, real_seconds: float
) -> str | None:
    """What is off by more than a factor of two."""
    if not real_memory / FACTOR <= max(memory, FLOOR) <= FACTOR * real_memory:
        return f"{memory} MiB are expected, and there are {real_memory:.1f}"
    if not real_seconds / FACTOR <= seconds <= FACTOR * real_seconds:
        return f"{seconds} seconds are expected, and it takes {real_seconds:.3f}"
    return None
