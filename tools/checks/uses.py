"""Checks that a file of src/, specs/ or proofs/ uses each name that its `use` lines bring in.

A name of `ghost use` must be in ghost code: in a clause, or in an item that begins with `ghost`. An
operator is used where each part of its name is, and `◌>>=◌` where `do` is. A name of a `pub use`
may be unused. A trait of TRAITS is there for its methods.
"""

import re
from collections.abc import Iterator
from pathlib import Path

from tools.checks.crates import REMARK
from tools.checks.tally import Tally

USE = {
    ".rt": re.compile(r"^[ \t]*(pub(?:\(\w+\))? )?(ghost )?use ([^;]+);", re.MULTILINE),
    ".antt": re.compile(r"^[ \t]*(pub )?()use ([^\n]+)$", re.MULTILINE),
}
BRACES = re.compile(r"(\w*)(?:::|\.)\{(.*)\}", re.DOTALL)
GHOST = re.compile(r"\b(?:requires|ensures|invariant|decreases|ghost(?! use))\b[^{;]*\{")
DEFAULT = re.compile(r"\s*=\s*\{")
LAST = re.compile(r"[\w']+$")
PART = r"(?<![\w'])%s(?![\w'])"
TRAITS = ("Abort", "ByteOrder", "Gate")


def ghost_part(text: str) -> str:
    """The clauses and the ghost items of a source."""
    parts = []
    for found in GHOST.finditer(text):
        end = behind_braces(text, found.end())
        if default := DEFAULT.match(text, end):
            end = behind_braces(text, default.end())
        parts.append(text[found.start():end])
    return "\n".join(parts)


def behind_braces(text: str, end: int) -> int:
    """The place after the brace that closes the one before this place."""
    depth = 1
    while depth and end < len(text):
        depth += (text[end] == "{") - (text[end] == "}")
        end += 1
    return end


def brought(what: str) -> Iterator[str]:
    """The names that a `use` of this brings in."""
    braces = BRACES.search(what)
    folder, items = (braces[1], braces[2].split(",")) if braces else ("", [what])
    for item in map(str.strip, items):
        item = folder if item == "self" else item
        name = LAST.search(item)
        yield item if name is None or "◌" in item else name[0]


def stands(name: str, text: str) -> bool:
    """Whether a name stands in a text that holds no `use` line."""
    if name == "◌>>=◌" and re.search(r"\bdo\b", text):
        return True
    parts = (re.escape(part) for part in name.split("◌") if part)
    return all(re.search(PART % part if LAST.match(part) else part, text) for part in parts)


def unused(path: Path) -> Iterator[str]:
    """The names that a file brings in and does not use."""
    text = REMARK[path.suffix].sub("", path.read_text(encoding="utf-8"))
    rest = USE[path.suffix].sub("", text)
    ghost = ghost_part(rest)
    for is_passed_on, is_ghost, what in USE[path.suffix].findall(text):
        if not is_passed_on:
            for name in brought(what):
                if name not in ("", "*", *TRAITS) and not stands(name, ghost if is_ghost else rest):
                    yield name


def check(top: Path, _program: Path, tally: Tally) -> None:
    """Reports each crate's first name that one of its files brings in and does not use."""
    for crate in sorted((top / "crates").iterdir()):
        fault = None
        for path in sorted(
            path for part in ("src", "specs", "proofs") for path in (crate / part).rglob("*")
        ):
            if fault is None and path.suffix in USE:
                place = str(path.relative_to(top))
                name = next(unused(path), None)
                fault = f"{place} does not use {name}" if name else None
        tally.tell(f"use lines of {crate.name}", fault)
