"""Rows of a bench: words, an input, and what a run of them takes."""

import subprocess
from collections.abc import Iterable, Iterator, Sequence
from dataclasses import dataclass
from pathlib import Path

ONCE = Path(__file__).resolve().with_name("once")
LONG = 60
MOST = 3600


class WrongStatus(Exception):
    """A run that did not end as it should."""


@dataclass(frozen=True)
class Row:
    """One measurement: the words, the input, and whether `cat` of one side stands beside it."""

    name: str
    words: list[str]
    text: str = ""
    cat: str | None = None


def hostile_rows(scripts: Iterable[tuple[str, str, list[str]]]) -> Iterator[Row]:
    """For each of the greatest scripts a row of its words, or one for each number of workers."""
    for name, text, words in scripts:
        if words:
            yield Row(name, words, text)
        else:
            yield Row(name, ["run"], text)
            yield Row(f"{name}, 2 workers", ["run", "--workers", "2"], text)


def run_once(
    command: Sequence[str | Path], given: Path, written: Path, most: float = MOST
) -> tuple[float, float, int]:
    """The seconds and the peak memory in MB of one run, and its status."""
    once: list[str | Path] = [ONCE, str(most), given, written, *command]
    seconds, peak, status = subprocess.run(
        once, capture_output=True, text=True, check=True
    ).stdout.split()
    return float(seconds), int(peak) / 1024, int(status)


def best_of(
    runs: int, command: Sequence[str | Path], given: Path, written: Path, most: float = MOST
) -> tuple[float, float]:
    """The best of some runs.

    A run that takes long is the last. One that ends with another status than 0 and 1 ends them all.
    """
    done = []
    for _ in range(runs):
        seconds, peak, status = run_once(command, given, written, most)
        if status not in (0, 1):
            raise WrongStatus(f"over {most}" if status == -9 else f"status {status}")
        done.append((seconds, peak))
        if seconds > LONG:
            break
    return min(done)


def measure(
    row: Row, program: Path, runs: int, folder: Path, most: float = MOST
) -> tuple[float, float, float | None, int, int]:
    """The seconds and the peak memory of a row, the seconds of `cat`, bytes read and written."""
    given, written, copied = folder / "given", folder / "written", folder / "copied"
    given.write_text(row.text)
    if row.words == ["verify"]:
        run_once([program, "run"], given, written)
        given.write_text(row.text + "journal\n" + written.read_text())
    seconds, peak = best_of(runs, [program, *row.words], given, written, most)
    cat = None
    if row.cat:
        cat = best_of(runs, ["cat"], {"input": given, "output": written}[row.cat], copied)[0]
    return seconds, peak, cat, given.stat().st_size, written.stat().st_size
