"""The test that the parts of tools/check find planted faults, each on a copy of the repository.

A copy has few of the cases. First each part must find nothing on the copy as it is. Then it must
find each fault, and is ended at the first item that fails. The trials run side by side, the slowest
first, and each has a line with its seconds. One that fails beside others is tried once more by
itself after all others, and only that counts. The last lines name each trial that failed once more.
"""

import os
import shutil
import subprocess
import tempfile
import time
from collections.abc import Callable, Iterator, Sequence
from concurrent.futures import ThreadPoolExecutor
from contextlib import contextmanager
from dataclasses import dataclass
from functools import partial
from pathlib import Path
from queue import SimpleQueue

from tools import checks
from tools.checks import browser, workers
from tools.checks.cases import CASE_FOLDERS
from tools.checks.planted import PLANTED
from tools.checks.tally import Tally
from tools.places import PROGRAM, TOP

LEFT_OUT = (".git", "out", "__pycache__", "random", "hostile", "refused", "results", "verify")
WHOLE = ""  # in place of a part: all of them, as tools/check runs them
USUAL = {**checks.OF_SOURCES, **checks.FIRST, **checks.PARTS}
OF_A_PAGE = "view/pages/"  # files whose faults only a browser shows
SLOWEST = 10  # how many trials are named at the end


@dataclass(frozen=True)
class Trial:
    """A part, what is tried, and how: on a copy, with a program. That gives what is wrong."""

    part: str
    what: str
    act: Callable[[Path, Path], str | None]

    def __str__(self) -> str:
        return f"{self.part}: {self.what}" if self.part else self.what


def is_fresh(top: Path, tally: Tally) -> bool:
    """Whether the program of a repository is newer than its sources; else this is a fault."""
    ran = subprocess.run([top / "tools/build", "--fresh"], check=False)
    tally.tell(str(PROGRAM), "it is missing or older than its sources: run tools/build"
               if ran.returncode else None)
    return ran.returncode == 0


def make_copy(program: Path, copy: Path) -> None:
    """Copies the repository with this program, and with few of its cases."""
    shutil.copytree(TOP, copy, ignore=shutil.ignore_patterns(*LEFT_OUT), symlinks=True)
    for path in (copy / "tests/cases/large").iterdir():
        if not path.name.startswith("generated_200_1"):
            path.unlink()
    (copy / PROGRAM).parent.mkdir(parents=True)
    shutil.copyfile(program, copy / PROGRAM)
    (copy / PROGRAM).chmod(0o755)


def told(copy: Path, part: str) -> tuple[int, str]:
    """The status and the text of a part on a copy, which is ended at the first item that fails."""
    kept = copy.with_name("kept")  # for the files that a failure leaves
    kept.mkdir(exist_ok=True)
    text = ""
    with subprocess.Popen([copy / "tools/check", *(["--only", part] if part else [])],
                          stdout=subprocess.PIPE, stderr=subprocess.STDOUT, text=True,
                          env={**os.environ, "TMPDIR": str(kept)}) as ran:
        for line in ran.stdout or ():
            text += line
            if line.startswith("failed: "):
                ran.terminate()
    return ran.returncode, text


def not_found(copy: Path, part: str) -> str | None:
    return None if told(copy, part)[0] else "it was not found"


# --- What is tried ---


def find_nothing(skipped: set[str], part: str, copy: Path, _: Path) -> str | None:
    """A part finds nothing on a copy as it is; it may do nothing, as its own tool is missing."""
    status, text = told(copy, part)
    if text.endswith("\n0 passed, 0 failed\n"):
        skipped.add(part)
    return text if status else None


def find_row(row: tuple[str, str, str, str], copy: Path, _: Path) -> str | None:
    """A part finds a text that is replaced, and then stands again."""
    part, name, old, new = row
    path = copy / name
    kept = path.read_text(encoding="utf-8")
    if old not in kept:
        return "the text is not there"
    write(copy, path, kept.replace(old, new, 1))
    try:
        return not_found(copy, part)
    finally:
        write(copy, path, kept)


def write(copy: Path, path: Path, text: str) -> None:
    """Writes a file of a copy, whose program stays the newest, so that nothing builds it anew."""
    path.write_text(text, encoding="utf-8")
    os.utime(copy / PROGRAM)


def find_change(
    part: str, change: Callable[[Path], object], copy: Path, program: Path
) -> str | None:
    """A part finds a change to a copy of its own."""
    changed = copy.with_name(f"{copy.name}-changed")
    make_copy(program, changed)
    try:
        change(changed)
        return not_found(changed, part)
    finally:
        shutil.rmtree(changed)


def remove_cases(copy: Path) -> None:
    for folder in CASE_FOLDERS:
        for path in (copy / folder).rglob("*.*"):
            path.unlink()


def wrap_verify(line: str, copy: Path) -> None:
    """Puts a shell script before the program, which answers `verify` by a line of its own."""
    program = copy / PROGRAM
    real = program.rename(program.with_name("real"))
    program.write_text(f'#!/bin/sh\n[ "$1" != verify ] || {{ {line}; }}\nexec {real} "$@"\n')
    program.chmod(0o755)


CHANGES: tuple[tuple[str, str, Callable[[Path], object]], ...] = (
    ("cases", "a stray file", lambda copy: (copy / "examples/names.stdot").write_text("")),
    ("cases", "no case", remove_cases),
    ("cases", "a no of verify", partial(wrap_verify, "exit 9")),
    ("cases", "a picture that verify leaves out",
     partial(wrap_verify, "echo yes events 4; exit 0")),
    (WHOLE, "a source newer than the program",
     lambda copy: os.utime(copy / "crates.txt", (time.time() + 60,) * 2)),
    (WHOLE, "no program", lambda copy: (copy / PROGRAM).unlink()),
)


def planted(skipped: set[str], tally: Tally) -> Iterator[Trial]:
    """The faults that can be found here."""
    for part in sorted(skipped):
        tally.skip(f"faults for {part}", "this part is skipped")
    for part, what, change in CHANGES:
        yield Trial(part, what, partial(find_change, part, change))
    for row in PLANTED:
        part, name, old, new = row
        what = f"{old!r} as {new!r} in {name}"
        if part not in skipped and name.startswith(OF_A_PAGE) and browser.program() is None:
            tally.skip(what, "Chromium is missing (apt install chromium)")
        elif part not in skipped:
            yield Trial(part, what, partial(find_row, row))


# --- The trials side by side ---


@contextmanager
def one_of(free: "SimpleQueue[Path]") -> Iterator[Path]:
    """A copy that nobody else has meanwhile."""
    copy = free.get()
    try:
        yield copy
    finally:
        free.put(copy)


def try_all(
    trials: Sequence[Trial], copies: Sequence[Path], program: Path, tally: Tally
) -> list[tuple[float, str]]:
    """Tries all, one on each copy at once, and gives the seconds that each took by the clock."""
    free: SimpleQueue[Path] = SimpleQueue()
    for copy in copies:
        free.put(copy)

    def trying(trial: Trial) -> tuple[float, str | None]:
        with one_of(free) as copy:
            begun = time.monotonic()
            fault = trial.act(copy, program)
            return time.monotonic() - begun, fault

    ordered, took = sorted(trials, key=lambda it: -USUAL.get(it.part, 0)), []
    again = []
    with ThreadPoolExecutor(len(copies)) as pool:
        for trial, (seconds, fault) in zip(ordered, pool.map(trying, ordered)):
            took.append((seconds, str(trial)))
            if fault is not None and len(copies) > 1:
                again.append(trial)
                tally.note(f"{trial} ({seconds:.0f} s), which fails beside others: {fault}")
            else:
                tally.tell(str(trial), fault)
                tally.note(f"{trial} ({seconds:.0f} s)")
    for trial in again:
        seconds, fault = trying(trial)
        tally.tell(str(trial), fault)
        tally.note(f"{trial}, by itself ({seconds:.0f} s)")
    return took


def selftest(program: Path | None, only_workers: bool) -> Tally:
    """Shows that planted faults are found: by all parts, or by the part `workers` alone."""
    tally = Tally(talkative=True)
    program = program or TOP / PROGRAM
    if not program.exists():
        tally.tell(str(program), "it is missing: run tools/build")
        return tally
    if not only_workers:
        with tempfile.TemporaryDirectory() as folder:
            Path(folder).chmod(0o755)  # a part runs a tool as a user without rights
            copies = [Path(folder) / str(lane) for lane in os.sched_getaffinity(0)]
            for copy in copies:
                make_copy(program, copy)
            skipped: set[str] = set()
            trials = [Trial(part, "nothing planted", partial(find_nothing, skipped, part))
                      for part in sorted({row[0] for row in PLANTED})]
            took = try_all(trials, copies, program, tally) if is_fresh(copies[0], tally) else []
            took += try_all(list(planted(skipped, tally)), copies, program, tally)
        tell_slowest(took, tally)
    workers.selftest(TOP, program, tally)
    tally.tell_again()
    return tally


def tell_slowest(took: Sequence[tuple[float, str]], tally: Tally) -> None:
    tally.note(f"{len(took)} trials in {sum(seconds for seconds, _ in took):.0f} seconds of theirs;"
               " most took")
    for seconds, name in sorted(took, reverse=True)[:SLOWEST]:
        tally.note(f"  {seconds:.0f} s {name}")
