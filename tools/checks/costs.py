"""The costs of the greatest scripts: each row of `bench/run --hostile` must end within a bound.

The check runs a small part of each script. On an idle machine a run takes less than a tenth of a
second; the bound is for a busy one. The large size is the whole of each script.
"""

import tempfile
from concurrent.futures import ThreadPoolExecutor
from pathlib import Path

from bench import greatest, measure
from tools.checks.tally import Tally

# The size of the part of each script, the seconds that a run may take, and rows at once.
SMALL, LARGE = (40, 60, 4), (1, 300, 1)


def fault_of(row: measure.Row, program: Path, most: float) -> str | None:
    with tempfile.TemporaryDirectory() as folder:
        try:
            measure.measure(row, program, 1, Path(folder), most)
        except measure.WrongStatus as wrong:
            return str(wrong)
    return None


def tell(program: Path, tally: Tally, part: int, most: float, at_once: int) -> None:
    rows = list(measure.hostile_rows(greatest.scripts(part)))
    with ThreadPoolExecutor(at_once) as pool:
        for row, fault in zip(rows, pool.map(lambda row: fault_of(row, program, most), rows)):
            tally.tell(f"the greatest script, {row.name}", fault)


def check(top: Path, program: Path, tally: Tally) -> None:
    tell(program, tally, *SMALL)


def check_large(top: Path, program: Path, tally: Tally) -> None:
    tell(program, tally, *LARGE)
