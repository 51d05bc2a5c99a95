"""A room for each proof: a small repository of one crate and those that it stands on.

A command of the toolchain keeps all others out of the folders of its crate and of all crates below.
So each command that runs beside others needs copies of them. A room is in its crate's folder out.
Its results are brought home by renaming, so at home a library is whole or not there.
"""

import errno
import os
import shutil
from collections.abc import Mapping
from dataclasses import dataclass
from pathlib import Path

from .crates import LIST, PROGRAM, SOURCES
from .sums import SUM

KEPT = "incremental"  # what the toolchain keeps of a proof, ended or not, for the next one
ROOM = "room"
HOW_IT_RUNS = ("args", "status")  # files of a program, which its stamp is made of too


@dataclass(frozen=True)
class Room:
    """The room of one crate."""

    top: Path
    crate: str

    @property
    def home(self) -> Path:
        return self.top / "crates" / self.crate / "out"

    @property
    def folder(self) -> Path:
        return self.home / ROOM

    @property
    def place(self) -> Path:
        """Where the toolchain is called."""
        return self.folder / "crates" / self.crate

    def has_kept(self) -> bool:
        """Whether the toolchain kept work of an earlier proof."""
        return (self.home / KEPT).is_dir() or (self.place / "out" / KEPT).is_dir()

    def furnish(self, rows: Mapping[str, str]) -> None:
        """Makes the room for the crates of these rows, with what earlier proofs kept."""
        shutil.rmtree(self.folder, ignore_errors=True)
        for crate in rows:
            to, of = self.folder / "crates" / crate, self.top / "crates" / crate
            for part in SOURCES:
                if (of / part).is_dir():
                    shutil.copytree(of / part, to / part)
            for name in HOW_IT_RUNS:
                if (of / name).is_file():
                    shutil.copy2(of / name, to / name)
            (to / "out").mkdir(parents=True)
            if (of / "out/rlib").is_dir():
                shutil.copytree(of / "out/rlib", to / "out/rlib", copy_function=link_or_copy)
        (self.folder / LIST).write_text("\n".join(rows.values()) + "\n", encoding="utf-8")
        move(self.home / KEPT, self.place / "out" / KEPT)

    def bring_home(self, sum_of_crate: str, began: float) -> bool:
        """Brings home what was made of sources that were read then; gives whether anything was."""
        made = self.place / "out"
        if self.crate != PROGRAM:
            if not (made / "rlib/stamp").exists():
                return False
            (made / "rlib" / SUM).write_text(sum_of_crate, encoding="utf-8")
            move(made / "rlib", self.home / "rlib")
            return True
        # The toolchain writes the stamp last.
        if not (made / f"{PROGRAM}.stamp").exists():
            return False
        os.utime(made / PROGRAM, (began, began))
        for name in (f"{PROGRAM}.stamp", PROGRAM):
            move(made / name, self.home / name)
        return True

    def leave(self) -> None:
        """Brings home what the proof kept, and removes the room."""
        move(self.place / "out" / KEPT, self.home / KEPT)
        shutil.rmtree(self.folder, ignore_errors=True)


def link_or_copy(one: str, other: str) -> None:
    """Gives a file of a library a second name: the toolchain never writes into such a file."""
    try:
        os.link(one, other)
    except OSError as error:
        if error.errno == errno.ENOSPC:
            raise
        shutil.copy2(one, other)


def move(one: Path, other: Path) -> None:
    """Puts a file or a folder, where there is one, instead of another."""
    if not one.exists():
        return
    gone = one.with_name(f"{one.name}.old")
    if other.is_dir():
        other.rename(gone)
    one.rename(other)
    shutil.rmtree(gone, ignore_errors=True)


def leave_all(top: Path) -> None:
    """Leaves the rooms of a build that was killed."""
    for folder in (top / "crates").glob(f"*/out/{ROOM}"):
        Room(top, folder.parent.parent.name).leave()
