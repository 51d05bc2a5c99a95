"""Many inputs of `verify`, each a file of a folder: a line for each answer but yes, and a count.

The program is started once for each file, and as many at once as there are processors.
"""

import os
import re
from collections import Counter
from collections.abc import Iterator, Sequence
from concurrent.futures import ThreadPoolExecutor
from dataclasses import dataclass
from functools import partial
from pathlib import Path

from zorvleid import console
from zorvleid.errors import printable

from . import programs

# The statuses of an answer, the worst first, and the words that count them.
KINDS = {9: "no", 11: "no journal", 5: "no script", 10: "not complete", 7: "too long",
         6: "no memory", 3: "not read", 0: "yes"}
NO_JOURNAL, NOT_READ, YES = 11, 3, 0
IS_OFF = re.compile(r"no: line \d+: \w+")


@dataclass(frozen=True)
class Answer:
    """What `verify` answers to a file: its status, and its line on standard error."""

    name: str
    status: int
    said: str = ""

    @property
    def rank(self) -> int:
        """How many kinds are worse. A status that no answer has is the worst."""
        return list(KINDS).index(self.status) if self.status in KINDS else -1

    def __str__(self) -> str:
        return f"{printable(self.name)}: {printable(self.said)}"


def files_of(folder: str) -> list[Path]:
    """The files in a folder and in those below it, by their names; not those that are hidden."""
    if not Path(folder).is_dir():
        error = NotADirectoryError if Path(folder).exists() else FileNotFoundError
        raise console.ReadFault(folder, error(0, "it is no folder"))
    found = sorted(path for path in Path(folder).rglob("*") if path.is_file()
                   and not any(part.startswith(".") for part in path.relative_to(folder).parts))
    if not found:
        raise console.ReadFault(folder, OSError(0, "no file is in it"))
    return found


def answer(program: Path, words: Sequence[str], path: Path) -> Answer:
    """The answer to a file. Its lines may end as ./zorvleid allows it."""
    try:
        data = console.read(str(path))
    except console.ReadFault as fault:
        return Answer(str(path), NOT_READ, str(fault))
    ran = programs.started(program, words, data)
    said = said_by(ran)
    if b"\r\n" in data and (ran.returncode == NO_JOURNAL or IS_OFF.fullmatch(said)):
        ran = programs.started(program, words, data.replace(b"\r\n", b"\n"))
        said = said_by(ran)
    return Answer(str(path), ran.returncode, said or f"status {ran.returncode}")


def said_by(ran: programs.Ran) -> str:
    """The first line on standard error."""
    return ran.stderr.decode("utf-8", "backslashreplace").partition("\n")[0]


def answers(folder: str, program: Path, is_whole: bool) -> list[Answer]:
    """The answers to all files of a folder."""
    words = ["verify", "--whole"] if is_whole else ["verify"]
    files = files_of(folder)
    with programs.pipes_kept(), ThreadPoolExecutor(os.cpu_count()) as pool:
        return list(pool.map(partial(answer, program, words), files))


def worst_of(found: Sequence[Answer]) -> Answer:
    """The first answer of the worst kind."""
    return min(found, key=lambda it: it.rank)


def lines(found: Sequence[Answer]) -> Iterator[str]:
    """Each answer but yes, how many there are of each kind, and the worst."""
    yield from (str(it) for it in found if it.status != YES)
    counts = Counter(it.status for it in found)
    kinds = [f"{counts[status]:,} {name}" for status, name in KINDS.items() if counts[status]]
    others = sum(count for status, count in counts.items() if status not in KINDS)
    yield f"{len(found):,} files: " + ", ".join(kinds + [f"{others:,} failed"] * bool(others))
    if (worst := worst_of(found)).status != YES:
        yield f"worst: {worst}"
