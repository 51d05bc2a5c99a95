"""Tries the wrong bodies that the gate leaves out: the prover must refuse each of them.

    tools/wrong_bodies            those of all crates
    tools/wrong_bodies CRATE..    those of these crates

The gate tries the folders must-fail. The folders wrong-bodies are in crates whose second proof
takes long. Each crate is tried in a room (tools/building/rooms.py), over the libraries below it,
which must be built. It reuses what `rt check` kept in the crate's folder out, if that is there;
else the crate is proved once more. A line of rt says how each try ended.

The status is 1 if a body was not refused or could not be tried, 2 for wrong words, 126 if a library
is missing, and 130 if it was interrupted. `rt` must be on the path.
"""

import argparse
import shutil
import subprocess
import sys
from pathlib import Path

from tools.building import crates
from tools.building.crates import Libraries
from tools.building.proving import RT_ONCE, Interrupted, Signals, die_with_parent
from tools.building.rooms import Room
from tools.building.telling import Teller
from tools.places import TOP
from tools.prove_crates import in_turn

FOLDER, TRIED = "wrong-bodies", "must-fail"
LACKS = 126


def crates_with_bodies(top: Path, listed: Libraries) -> list[str]:
    return [it for it in listed if any((top / "crates" / it / FOLDER).glob("*.edit"))]


def missing(top: Path, names: list[str]) -> list[str]:
    return [it for it in names if not (top / "crates" / it / "out/rlib/stamp").exists()]


def are_refused(room: Room, rows: dict[str, str], signals: Signals) -> bool:
    """Has the toolchain try a crate's wrong bodies in its room, and leaves the room."""
    room.home.mkdir(exist_ok=True)
    process = None
    try:
        room.furnish(rows)
        shutil.copytree(room.top / "crates" / room.crate / FOLDER, room.place / TRIED)
        process = subprocess.Popen(
            [sys.executable, str(RT_ONCE), TRIED, room.crate],
            cwd=room.folder,
            stdin=subprocess.DEVNULL,
            preexec_fn=die_with_parent,
        )
        while process.poll() is None:
            signals.wait()
        return process.returncode == 0
    finally:
        if process is not None:
            process.kill()
            process.wait()
        room.leave()


def try_all(names: list[str], listed: Libraries, signals: Signals) -> int:
    rows, failed = crates.rows(TOP / crates.LIST), []
    for crate in names:
        made_of = crates.made_of(crate, listed)
        with in_turn(made_of, Teller(), signals):
            lacking = missing(TOP, made_of[:-1])
            if lacking:
                print(f"tools/wrong_bodies: run tools/build first: {lacking[0]} is not built",
                      file=sys.stderr)
                return LACKS
            if not are_refused(Room(TOP, crate), {it: rows[it] for it in made_of}, signals):
                failed.append(crate)
    print(f"wrong bodies of {len(names)} crates: " + (
        f"not all are refused in {' '.join(failed)}" if failed else "all are refused"))
    return 1 if failed else 0


def main() -> int:
    listed = crates.libraries(TOP / crates.LIST)
    having = crates_with_bodies(TOP, listed)
    parser = argparse.ArgumentParser(
        prog="tools/wrong_bodies", description="Tries the wrong bodies that the gate leaves out."
    )
    parser.add_argument("crates", nargs="*", metavar="CRATE", help="of these crates alone")
    names = parser.parse_args().crates or having
    for name in names:
        if name not in having:
            parser.exit(2, f"tools/wrong_bodies: {name} has no folder {FOLDER}, as {having} have\n")
    try:
        return try_all(names, listed, Signals())
    except Interrupted as by:
        print("interrupted", file=sys.stderr)
        return 128 + by.number


if __name__ == "__main__":
    sys.exit(main())
