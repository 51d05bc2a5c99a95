"""Runs the toolchain's rt, which computes the stamp of each crate once.

    python3 tools/building/rt_once.py WORD..      as rt WORD..

rt knows a library by its stamp, a sum of the crate's sources and of the stamps of all crates that
it lists. It computes a stamp anew along each path from crate to crate, and the program has
thousands of them: that took minutes of the longest chain. In a room no source changes while rt
runs, so one stamp a crate is enough. A toolchain that is made in another way runs as it is.

With ZORVLEID_STATEMENTS in the environment, `rt lib` writes a library that has what others can
cite, and not its proofs. Those above it load it in less time and memory. The toolchain keeps no
work of such a proof. A toolchain that knows no such libraries writes a whole one.
"""

import importlib.machinery
import importlib.util
import os
import shutil
import sys
from pathlib import Path
from types import ModuleType
from typing import Any


STATEMENTS = "ZORVLEID_STATEMENTS"
KEEPS = "--incremental"


def module_of(path: Path) -> ModuleType | None:
    """The program rt as a module, or None where it keeps no crates in a module beside it."""
    if not path.with_name("rtlib.py").is_file():
        return None
    loader = importlib.machinery.SourceFileLoader("rt", str(path))
    spec = importlib.util.spec_from_loader("rt", loader)
    if spec is None:
        return None
    made = importlib.util.module_from_spec(spec)
    loader.exec_module(made)
    has_stamps = hasattr(made, "main") and hasattr(made, "rtlib")
    return made if has_stamps and hasattr(made.rtlib.Crate, "stamp") else None


def stamp_once(crate_type: Any) -> None:
    """Has crates of this type keep the first stamp of each folder."""
    made, kept = crate_type.stamp, {}

    def stamp(crate: Any) -> str:
        if crate.folder not in kept:
            kept[crate.folder] = made(crate)
        return str(kept[crate.folder])

    crate_type.stamp = stamp


def without_proofs(crate_type: Any) -> None:
    """Has the library of a crate of this type hold its statements alone, in place of kept work."""
    made = crate_type.call

    def call(crate: Any, *words: str) -> int:
        if words[1:2] == ("build",) and KEEPS in words and words[-1] == crate.rlib:
            at = words.index(KEEPS)
            words = (*words[:at], "--statements", *words[at + 2 :])
        return int(made(crate, *words))

    crate_type.call = call


def main() -> int:
    path = Path(os.path.realpath(shutil.which("rt") or "rt"))
    rt = module_of(path)
    if rt is None:
        os.execvp("rt", ["rt", *sys.argv[1:]])
    stamp_once(rt.rtlib.Crate)
    if STATEMENTS in os.environ and "--statements" in rt.rtlib.help_of("build"):
        without_proofs(rt.rtlib.Crate)
    return int(rt.main(sys.argv[1:]) or 0)


if __name__ == "__main__":
    sys.exit(main())
