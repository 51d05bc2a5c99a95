"""The libraries that are up to date: each has the sum of all its sources beside it."""

import hashlib
from collections.abc import Mapping
from pathlib import Path

from .crates import SOURCES

SUM = "sum"


def sums(
    top: Path, below: Mapping[str, list[str]], rows: Mapping[str, str], toolchain: str
) -> dict[str, str]:
    """The sum of each crate: of its row, its files, the toolchain, and the sums of those below."""
    found: dict[str, str] = {}
    for crate, lower in below.items():
        sum_of = hashlib.sha256(
            repr((toolchain, rows[crate], [found[it] for it in lower])).encode()
        )
        for part in SOURCES:
            for path in sorted((top / "crates" / crate / part).rglob("*")):
                if path.is_file():
                    sum_of.update(repr((str(path.relative_to(top)), path.read_bytes())).encode())
        found[crate] = sum_of.hexdigest()
    return found


def stands(top: Path, crate: str, sum_of_crate: str) -> bool:
    """Whether a library of these very sources is built."""
    rlib = top / "crates" / crate / "out/rlib"
    try:
        return (rlib / SUM).read_text(encoding="utf-8") == sum_of_crate and (
            rlib / f"{crate}.rlib"
        ).is_dir()
    except OSError:
        return False
