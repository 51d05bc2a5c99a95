"""Looks up the names in back quotes of the documents and of the heads of the crates.

A name must stand as a word in a file that is no document and no stored output, outside of remarks.
The list of planted faults does not count, since it has the wrong names that must be found.
Of a name such as `Hall::shows_laws` both parts must stand in one such file.
"""

import re
import subprocess
from collections.abc import Iterator
from pathlib import Path

from tools.checks.tally import Tally

QUOTED = re.compile(r"`([A-Za-z_]\w*(?:::\w+)*)(?:\(\))?`")
BLOCK = re.compile(r"```.*?```", re.DOTALL)
REMARK = re.compile(r"//[^\n]*|^\s*--[^\n]*", re.MULTILINE)
WORD = re.compile(r"[A-Za-z_]\w*")
HEAD = re.compile(r"crates/\w+/src/(?:lib|main)\.rt")
CODE = (".rt", ".antt", ".py", ".c", ".h", ".html", ".js", ".toml", ".txt", ".edit", ".script", "")
PLACEHOLDERS = ("FORM",)
LIST_OF_FAULTS = "tools/checks/planted.py"


def tracked(top: Path) -> list[str]:
    """The files of the repository, by git or, in a copy without it, by the folders."""
    ran = subprocess.run(["git", "ls-files"], cwd=top, capture_output=True, text=True, check=False)
    if not ran.returncode and ran.stdout:
        return ran.stdout.splitlines()
    return [path.relative_to(top).as_posix() for path in top.rglob("*") if path.is_file()]


def words_of(top: Path, names: list[str]) -> list[set[str]]:
    """The words of each file that is code, without its remarks."""
    found = []
    for name in set(names) - {LIST_OF_FAULTS}:
        path = top / name
        if path.suffix in CODE and path.is_file() and path.stat().st_size < 400_000:
            text = path.read_text(encoding="utf-8", errors="replace")
            found.append(set(WORD.findall(REMARK.sub("", text))))
    return found


def quoted(top: Path, names: list[str]) -> Iterator[tuple[str, str]]:
    """Each document and head with each name that it has in back quotes."""
    for name in names:
        is_document = name.endswith(".md") and name != "CHANGELOG.md"
        if is_document or HEAD.fullmatch(name):
            lines = (top / name).read_text(encoding="utf-8").splitlines()
            text = "\n".join(it for it in lines if is_document or it.startswith("//!"))
            for it in sorted(set(QUOTED.findall(BLOCK.sub("", text)))):
                yield name, it


def check(top: Path, _program: Path, tally: Tally) -> None:
    names = tracked(top)
    files = words_of(top, names)
    for name, it in quoted(top, names):
        parts = set(it.split("::"))
        stands = len(it) < 2 or it in PLACEHOLDERS or any(parts <= words for words in files)
        tally.tell(f"{name}: `{it}`", None if stands else "no file of the code has this name")
