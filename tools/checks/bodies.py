"""Checks that each wrong body of the folders wrong-bodies still fits its crate.

The toolchain tries the folders must-fail in each gate. The folders wrong-bodies are tried only
before a release, by tools/wrong_bodies. So this checks that each of their old texts stands once in
its file.
"""

import re
from pathlib import Path

from tools.checks.tally import Tally
from tools.wrong_bodies import FOLDER, TRIED

FILE = re.compile(r"file: ((?:src|specs|proofs)/\S+)")


def fault_in(body: Path) -> str | None:
    """Why a body cannot be tried, or None."""
    texts: dict[Path, str] = {}
    path, old, pairs = Path(), "", 0
    for line in body.read_text(encoding="utf-8").splitlines():
        if found := FILE.fullmatch(line):
            path = body.parent.parent / found[1]
            if not path.is_file():
                return f"{found[1]} is no file of its crate"
            texts.setdefault(path, path.read_text(encoding="utf-8"))
        elif line.startswith("old: "):
            old = line.removeprefix("old: ")
        elif line.startswith("new: ") and path in texts and old:
            count = texts[path].count(old)
            if count != 1:
                return f"{path.name} has its text {count} times: {old}"
            texts[path] = texts[path].replace(old, line.removeprefix("new: "))
            old, pairs = "", pairs + 1
        else:
            return f"a line of it says nothing: {line}"
    return None if pairs else "it changes nothing"


def check(top: Path, _program: Path, tally: Tally) -> None:
    """Reports each wrong body that does not fit, and each name that has one in both folders."""
    for body in sorted(top.glob(f"crates/*/{FOLDER}/*")):
        fault = fault_in(body)
        if (body.parent.parent / TRIED / body.name).exists():
            fault = f"its crate has one of that name in {TRIED} too"
        tally.tell(str(body.relative_to(top)), fault)
