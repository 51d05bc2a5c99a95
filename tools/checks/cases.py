"""Runs the program on stored cases, on each prefix of one script, and on short inputs.

A case NAME is made of the files NAME.script (standard input), NAME.words (the words after the
program's name, one a line; no such file: `run`), NAME.stdout, NAME.stderr (no such file: nothing)
and NAME.status (no such file: 0). It has a script or words. The output is compared whole, but for
view lines, which differ from run to run: a case with `--views` stores the lines before them. A part
that is too large to be stored has a sum instead, NAME.script.sum or NAME.stdout.sum: its length and
SHA-256. tests/large.py makes the part.

If a case is a `run` that ends with 0 or 1, `verify` must say yes to its script, a line `journal`
and its output. It must show the same picture. What is too long for `verify` goes to `verify
--whole`.

tests/cuts_of_two_texels.tsv has the answers of `run` to each prefix of the script of the case
two_texels, with 2 workers too. tests/short_inputs.tsv has the program's answers to inputs of a few
lines, each with its rule.
"""

import os
import subprocess
from concurrent.futures import Executor, ThreadPoolExecutor
from dataclasses import dataclass
from pathlib import Path

from tests import large
from tools.checks import workers
from tools.checks.tally import Tally
from tools.places import SECONDS
from zorvleid import output as outputs

CUTS = Path("tests/cuts_of_two_texels.tsv")
SHORT = Path("tests/short_inputs.tsv")
CUT_CASE = Path("tests/cases/runs/two_texels.script")
CASE_FOLDERS = ("examples", "tests/cases")
BESIDE = (".commands", ".c", ".journal")  # of files that are no part of a case
CASE_FILES = (".script", ".words", ".stdout", ".stderr", ".status", ".script.sum", ".stdout.sum")

Item = tuple[str, str | None]  # what was looked at, and its fault


class Fault(Exception):
    """The fault of an item."""


@dataclass(frozen=True)
class Case:
    """Words and an input, and the answer that the program must give to them."""

    words: list[str]
    script: bytes
    status: int
    output: bytes
    fault: bytes


def difference(what: str, wanted: bytes, got: bytes) -> str | None:
    """How two outputs differ, or None where they are the same."""
    if wanted == got:
        return None
    wanted_lines, got_lines = wanted.splitlines(True), got.splitlines(True)
    for number, (want, have) in enumerate(zip(wanted_lines, got_lines), 1):
        if want != have:
            return f"{what} differs in line {number}: wanted {want[:100]!r}, got {have[:100]!r}"
    return f"{what} has {len(got)} bytes, and {len(wanted)} are wanted"


def run_case(program: Path, case: Case) -> str | None:
    """The first fault of a case, or None."""
    try:
        ran = subprocess.run(
            [program, *case.words], input=case.script, capture_output=True, timeout=SECONDS,
            check=False
        )
    except subprocess.TimeoutExpired:
        return f"it has not ended after {SECONDS} seconds"
    except OSError as error:
        return f"the program does not start: {error.strerror}"
    if ran.returncode != case.status:
        return (
            f"the status is {ran.returncode}, and {case.status} is wanted; {ran.stderr[:100]!r} on "
            "standard error"
        )
    output = workers.without_views(ran.stdout) if "--views" in case.words else ran.stdout
    return difference("standard output", case.output, output) or difference(
        "standard error", case.fault, ran.stderr
    )


def verified(case: Case) -> Case | None:
    """The case of `verify` on a case's own output, or None where there is none."""
    if case.words[:1] != ["run"] or case.status not in (0, 1):
        return None
    script = case.script if not case.script or case.script.endswith(b"\n") else case.script + b"\n"
    whole = script + b"journal\n" + case.output
    if len(whole) > workers.WHOLE_AT_MOST:
        return None
    words = ["verify"] if len(whole) <= workers.INPUT_AT_MOST else ["verify", "--whole"]
    read = outputs.read_output(case.output)
    picture = outputs.picture_text(case.output, read)
    return Case(words, whole, 0, b"yes events %d\n" % read.event_count + picture, b"")


# --- Stored cases ---


def read_or(path: Path, default: bytes) -> bytes:
    """The bytes of a file, or others where it is not there."""
    return path.read_bytes() if path.exists() else default


def read_case(base: Path) -> Case:
    """The case that stands in the files of a name; an unlawful one raises its fault."""

    def part(ending: str) -> Path:
        return base.with_name(base.name + ending)

    def large_part(ending: str, place: int) -> bytes:
        stored, wanted = part(ending), part(ending + ".sum")
        if not wanted.exists():
            return read_or(stored, b"")
        if stored.exists() or base.name not in large.MAKERS:
            raise Fault(f"{wanted.name} stands for a part that is stored, or that nothing makes")
        data = large.MAKERS[base.name]()[place].encode()
        if not large.has_sum(data, wanted.read_text()):
            raise Fault(f"what tests/large.py makes has not the sum of {wanted.name}")
        return data

    if not any(part(ending).exists() for ending in (".script", ".script.sum", ".words")):
        raise Fault("it has neither a script nor words")
    try:
        status = int(read_or(part(".status"), b"0"))
    except ValueError:
        raise Fault("its status is no number") from None
    words = read_or(part(".words"), b"run\n").decode().splitlines()
    return Case(words, large_part(".script", 0), status, large_part(".stdout", 1),
                read_or(part(".stderr"), b""))


def base_of(path: Path) -> Path | None:
    """The path of a case's name, or None where a file is no part of a case."""
    for ending in sorted(CASE_FILES, key=len, reverse=True):
        if path.name.endswith(ending) and path.name != ending:
            return path.with_name(path.name[: -len(ending)])
    return None


def stored_items(top: Path, program: Path, base: Path) -> list[Item]:
    """The items of a stored case."""
    name = str(base.relative_to(top))
    try:
        case = read_case(base)
    except Fault as fault:
        return [(name, str(fault))]
    items = [(name, run_case(program, case))]
    try:
        if (again := verified(case)) is not None:
            items.append((f"{name}, verified", run_case(program, again)))
    except outputs.OutputRefused as refused:
        items.append((f"{name}, its output", str(refused)))
    return items


def check_stored(top: Path, program: Path, tally: Tally, pool: Executor) -> None:
    """Runs each stored case."""
    bases = set()
    for folder in CASE_FOLDERS:
        for path in sorted((top / folder).rglob("*")):
            if path.is_dir() or path.name == "README.md" or path.suffix in BESIDE:
                continue
            base = base_of(path)
            if base is None:
                tally.tell(str(path.relative_to(top)), "it is no part of a case")
            else:
                bases.add(base)
    if not bases:
        tally.tell("cases", "there is none")
    for items in pool.map(lambda base: stored_items(top, program, base), sorted(bases)):
        for item in items:
            tally.tell(*item)


def check_cuts(top: Path, program: Path, tally: Tally, pool: Executor) -> None:
    """Runs each prefix of the script of one case, on one thread and with workers."""
    script = read_or(top / CUT_CASE, b"")
    rows = [line.split("\t") for line in (top / CUTS).read_text().splitlines()[1:]]
    if [row[0] for row in rows] != [str(size) for size in range(len(script) + 1)]:
        tally.tell(str(CUTS), "it has not one row for each number of bytes")
        return

    def run_row(item: tuple[list[str], list[str]]) -> str | None:
        (size, status, fault, output), words = item
        output = "".join(line + "\n" for line in output.split("/") if line)
        fault = fault + "\n" if fault else ""
        return run_case(
            program, Case(words, script[: int(size)], int(status), output.encode(), fault.encode())
        )

    items = [(row, words) for words in (["run"], ["run", "--workers", "2"]) for row in rows]
    for (row, words), fault in zip(items, pool.map(run_row, items)):
        tally.tell(f"two_texels cut after {row[0]} bytes, {' '.join(words)}", fault)


def check_short_inputs(top: Path, program: Path, tally: Tally, pool: Executor) -> None:
    """Runs each row of the short inputs, and `verify` on what a `run` among them gives."""
    rows = [line.split("\t") for line in (top / SHORT).read_text().splitlines()[1:]]
    if not rows:
        tally.tell(str(SHORT), "it has no row")

    def items_of(row: list[str]) -> list[Item]:
        what, words, status, fault, output, escaped = row
        text = escaped.encode().decode("unicode_escape").encode("latin-1")
        output = "".join(line + "\n" for line in output.split("/") if line)
        case = Case(words.split(), text, int(status), output.encode(),
                    (fault + "\n" if fault else "").encode())
        again = verified(case)
        items = [(what, run_case(program, case))]
        return items + ([(f"{what}, verified", run_case(program, again))] if again else [])

    for number, found in enumerate(pool.map(items_of, rows), 2):
        for what, wrong in found:
            tally.tell(f"{SHORT}, line {number}: {what}", wrong)


def check(top: Path, program: Path, tally: Tally) -> None:
    """Reports the faults of each case, each prefix and each short input."""
    with ThreadPoolExecutor(os.cpu_count()) as pool:
        check_stored(top, program, tally, pool)
        check_cuts(top, program, tally, pool)
        check_short_inputs(top, program, tally, pool)
