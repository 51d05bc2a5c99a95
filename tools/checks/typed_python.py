"""The Python of the repository: its types, by mypy --strict, its imports and its path of modules.

The settings of mypy are those of pyproject.toml.
"""

import ast
import os
import re
import shutil
import subprocess
import sys
from collections.abc import Iterator
from pathlib import Path

from tools.checks.tally import Tally

PACKAGES = ("tools", "tests", "bench", "view", "command_line", "python/zorvleid")
SCRIPTS = ("bench/once", "python/pack_zorvleid.py")
COMMANDS = ([sys.executable, "-m", "mypy"], ["mypy"])
ENVIRONMENT = {name: text for name, text in os.environ.items() if name != "PYTHONPATH"}


def run(words: list[str], top: Path) -> "subprocess.CompletedProcess[str]":
    """The answer of a command that is run at the top."""
    return subprocess.run(
        words, cwd=top, capture_output=True, text=True, check=False, env=ENVIRONMENT
    )


def checker(top: Path) -> list[str] | None:
    """The command of mypy, or None where it is missing."""
    return next(
        (
            words
            for words in COMMANDS
            if shutil.which(words[0]) and run([*words, "--version"], top).returncode == 0
        ),
        None,
    )


def sources(top: Path) -> Iterator[Path]:
    """Each source of Python."""
    yield from (path for folder in PACKAGES for path in sorted((top / folder).rglob("*.py")))
    yield from (top / name for name in SCRIPTS)


def path_changes(path: Path) -> Iterator[int]:
    """The lines in which a source names `sys.path`."""
    for node in ast.walk(ast.parse(path.read_text(encoding="utf-8"))):
        if isinstance(node, ast.Attribute) and node.attr == "path":
            if isinstance(node.value, ast.Name) and node.value.id == "sys":
                yield node.lineno


def unused_imports(path: Path) -> Iterator[str]:
    """The names that a source imports and never uses. A name within a text counts as used."""
    nodes = list(ast.walk(ast.parse(path.read_text(encoding="utf-8"))))
    remarks = {id(node.value) for node in nodes if isinstance(node, ast.Expr)}
    used = {node.id for node in nodes if isinstance(node, ast.Name)}
    for node in nodes:
        if isinstance(node, ast.Constant) and isinstance(node.value, str):
            used |= set() if id(node) in remarks else set(re.findall(r"\w+", node.value))
    for node in nodes:
        if isinstance(node, ast.Import | ast.ImportFrom):
            names = (name.asname or name.name.partition(".")[0] for name in node.names)
            yield from (name for name in names if name not in used)


def fault_of_source(path: Path) -> str | None:
    """Why a source is not as it should be."""
    line, unused = next(path_changes(path), None), list(unused_imports(path))
    if line is not None:
        return f"line {line} names sys.path: start it as a module"
    return f"it imports {', '.join(unused)} and does not use that" if unused else None


def check(top: Path, _program: Path, tally: Tally) -> None:
    """Reports each source that changes the path of modules or imports too much; faults of mypy."""
    for path in sources(top):
        tally.tell(str(path.relative_to(top)), fault_of_source(path))
    mypy = checker(top)
    if mypy is None:
        tally.skip("the types of the Python", "mypy is missing (apt install mypy)")
        return
    ran = run([*mypy, "--cache-dir", os.devnull, *PACKAGES, *SCRIPTS], top)
    tally.tell("the types of the Python", None if ran.returncode == 0 else ran.stdout.strip())
