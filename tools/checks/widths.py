"""Checks that no line of Python is wider than pyproject.toml allows."""

import tomllib
from collections.abc import Iterator
from pathlib import Path

from tools.checks.tally import Tally
from tools.checks.typed_python import SCRIPTS

FOLDERS = ("tools", "tests", "bench", "view", "command_line", "python")


def sources(top: Path) -> Iterator[Path]:
    """Each source of Python in FOLDERS, and the scripts without an ending."""
    yield from (path for folder in FOLDERS for path in sorted((top / folder).rglob("*.py")))
    yield from (top / name for name in SCRIPTS if not name.endswith(".py"))


def fault_of(path: Path, most: int) -> str | None:
    """The first line that is too wide, or None."""
    for number, line in enumerate(path.read_text(encoding="utf-8").splitlines(), 1):
        if len(line) > most:
            return f"line {number} has {len(line)} columns, and {most} are allowed"
    return None


def check(top: Path, _program: Path, tally: Tally) -> None:
    """Reports the first line of each source that is too wide."""
    settings = tomllib.loads((top / "pyproject.toml").read_text(encoding="utf-8"))
    for path in sources(top):
        fault = fault_of(path, settings["tool"]["ruff"]["line-length"])
        tally.tell(f"the width of {path.relative_to(top)}", fault)
