"""Checks that each crate is described once, and that it uses each library that crates.txt lists.

A crate has one row in the tables of docs/ARCHITECTURE.md. The row names crates that the crate
lists. The head of its root file lists what its contracts say, except in a crate of tests. A file of
src/, specs/ or proofs/ names a library by a path: `Rattle.NAME.` in a definition or a proof, and in
code `NAME::` or `use NAME`. Names in remarks do not count.
"""

import re
from collections.abc import Iterator, Mapping
from pathlib import Path

from tools.checks import prose
from tools.checks.tally import Tally

LIST, TABLE = "crates.txt", "docs/ARCHITECTURE.md"
ROW = re.compile(r"^\| `(\w+)` \|[^|]+\| ([^|]*) \|$", re.MULTILINE)
PROMISE = re.compile(r"^- \S", re.MULTILINE)
NOTES = "\nNotes:"  # what comes after it is no promise
OF_TESTS = "_tests"
REMARK = {".rt": re.compile(r"(?<!:)//[^\n]*"),
          ".antt": re.compile(r"(?:^|(?<=\s))--[^\n]*", re.MULTILINE)}
NAMES = {
    ".rt": re.compile(r"\bRattle\.(\w+)\.|(?<![\w:])(\w+)::|\buse (\w+)\b(?!\.)"),
    ".antt": re.compile(r"\bRattle\.(\w+)\."),
}


def listed(top: Path) -> Iterator[tuple[str, list[str]]]:
    """Each crate of the list with the libraries after its colon."""
    for line in (top / LIST).read_text(encoding="utf-8").splitlines():
        head, colon, libraries = line.partition(":")
        if colon and not line.startswith("#"):
            yield head.split()[0], libraries.split()


def named(folder: Path) -> set[str]:
    """Every name by which the files of a crate may name a library."""
    found: set[str] = set()
    for part in ("src", "specs", "proofs"):
        for path in (folder / part).rglob("*"):
            if path.suffix in NAMES:
                text = REMARK[path.suffix].sub("", path.read_text(encoding="utf-8"))
                found.update(
                    name for match in NAMES[path.suffix].finditer(text) for name in match.groups()
                )
    return found


def check_once(where: str, crates: Mapping[str, object], names: list[str], tally: Tally) -> None:
    """Reports each crate that a page does not describe once, and each name of no crate."""
    for crate in sorted(crates.keys() | set(names)):
        found = names.count(crate)
        tally.tell(f"{where}: {crate}",
                   None if found == 1 and crate in crates else f"it is described {found} times")


def check_rows(top: Path, tally: Tally) -> None:
    """Reports each crate that is not described once, and each row with an unlisted name."""
    crates = dict(listed(top))
    rows = ROW.findall((top / TABLE).read_text(encoding="utf-8"))
    check_once(TABLE, crates, [name for name, _ in rows], tally)
    for crate, below in rows:
        strange = [
            name for name in re.findall(r"`(\w+)`", below) if name not in crates.get(crate, ())
        ]
        tally.tell(f"{TABLE}: what {crate} stands on",
                   f"{LIST} does not list {strange[0]}" if strange else None)


def check_heads(top: Path, tally: Tally) -> None:
    """Reports each crate whose root file does not say at its head what its contracts say."""
    for name, text in prose.heads(top):
        crate = Path(name).parts[1]
        is_so = text and (crate.endswith(OF_TESTS) or PROMISE.search(text.partition(NOTES)[0]))
        tally.tell(
            f"{name}: its head", None if is_so else "it does not list what the contracts say"
        )


def check(top: Path, _program: Path, tally: Tally) -> None:
    """Reports each crate's first library that it never names, and how often it is described."""
    check_rows(top, tally)
    check_heads(top, tally)
    for crate, libraries in listed(top):
        names = named(top / "crates" / crate)
        needless = [library for library in libraries if library not in names]
        tally.tell(f"{LIST}: {crate}", f"no file of it names {needless[0]}" if needless else None)
