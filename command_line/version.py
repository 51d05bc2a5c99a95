"""The version, the commit, the kit, and whether the program at hand is proved and of the commit."""

import subprocess
from collections.abc import Iterator

from .table import TOP

VERSION = "0.1.0"
RELEASE = TOP / "RELEASE"
PROGRAM = TOP / "crates/script_main/out/script_main"


def said(*words: str) -> str | None:
    """What a command writes, without its last line feed, or None where it fails."""
    try:
        ran = subprocess.run(words, cwd=TOP, capture_output=True, text=True, check=False)
    except OSError:
        return None
    return ran.stdout.rstrip("\n") if ran.returncode == 0 else None


def commit_of_tree() -> tuple[str | None, bool]:
    """The commit of the tree, and whether the tree was changed; no commit without a repository."""
    if said("git", "rev-parse", "--show-prefix") != "":
        return None, False
    return said("git", "rev-parse", "HEAD"), said("git", "status", "--porcelain") != ""


def of_tree() -> Iterator[str]:
    """What a tree of sources is."""
    commit, is_changed = commit_of_tree()
    changes = ", with changes" if is_changed else ""
    yield f"commit: {commit}{changes}" if commit else "commit: not known, since git tells none"
    kit = said("rt", "version")
    yield f"kit: {kit.splitlines()[0]}" if kit else "kit: none, since no rt is on the path"
    if not PROGRAM.exists():
        yield "program: not built; the first run proves and builds it"
    elif said(str(TOP / "tools/build"), "--fresh") is None:
        yield "program: older than its sources; the next run proves and builds it anew"
    else:
        of = "this changed tree" if is_changed else "this commit" if commit else "these sources"
        yield f"program: newer than its sources, of {of}; tools/build builds only what is proved"


def of_release() -> Iterator[str]:
    """What a release is, by its own file. Only a proved program that passed the gate is packed."""
    lines = RELEASE.read_text(encoding="utf-8").splitlines()
    facts = dict(line.split(": ", 1) for line in lines if ": " in line)
    yield f"commit: {facts.get('commit', 'not known')}"
    yield f"kit: {facts.get('toolchain', 'not known')}"
    yield f"program: proved, of this commit; {facts.get('gate', 'nothing is known of the gate')}"


def text() -> str:
    """The lines of --version."""
    lines = [f"zorvleid {VERSION}", *(of_release() if RELEASE.exists() else of_tree())]
    return "".join(line + "\n" for line in lines)
