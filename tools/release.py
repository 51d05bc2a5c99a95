"""Packs a built program with all that its user needs: zorvleid-VERSION-x86_64-linux.tar.gz

    tools/release --gate LOG [--into FOLDER] [--toolchain TEXT]

LOG is the output of `bash .ci/run` on this commit; its last line says so. FOLDER is the place of
the file (left out: here), and TEXT names the toolchain (left out: the line of `rt version`). The
packed folder holds the program, the shell script with its table of commands, the tools that show an
output, the documents and the examples. Its README is tools/release_readme.md. RELEASE names its
origin, and SHA256SUMS has the sum of each file. The same commit and program give the same bytes.

Refused, with status 1: a tree with changes, a log whose gate did not pass on this commit, and a
program that is missing or older than its sources.
"""

import argparse
import gzip
import hashlib
import io
import os
import re
import subprocess
import sys
import tarfile
from collections.abc import Mapping
from pathlib import Path, PurePosixPath
from typing import IO, cast

from tools.places import PROGRAM, TOP

PACKED = ("zorvleid", "README.md", "CHANGELOG.md", "SECURITY.md", "command_line", "view", "python",
          "include", "docs",
          "examples")
READMES = {"README.md": Path("tools/release_readme.md")}  # what is packed under another name
TARGET = "x86_64-linux"
Packed = tuple[bytes, bool]  # the bytes of a file, and whether it can be run
LINK = re.compile(rb"!?\[([^\]\n]*)\]\(([^)\s]+)\)")


class Refusal(Exception):
    """Why there is no release."""


def run(*words: str | Path) -> str:
    """The output of a command, or a refusal."""
    try:
        ran = subprocess.run(words, cwd=TOP, capture_output=True, text=True, check=False)
    except OSError as error:
        raise Refusal(f"{words[0]} does not start: {error.strerror}") from None
    if ran.returncode != 0:
        raise Refusal(
            f"{' '.join(map(str, words))} ends with {ran.returncode}: {ran.stderr.strip()}"
        )
    return ran.stdout


def gate_line(log: Path, commit: str) -> str:
    """The last line of a gate's log, which must say that it passed on the commit."""
    try:
        lines = log.read_text(encoding="utf-8", errors="replace").rstrip("\n").split("\n")
    except OSError as error:
        raise Refusal(f"{log}: {error.strerror}") from None
    if lines[-1] != f"the gate passed on {commit}":
        raise Refusal(f"the last line of {log} is not that of a gate that passed on {commit}")
    return lines[-1]


def program() -> bytes:
    """The bytes of the built program."""
    if subprocess.run([TOP / "tools/build", "--fresh"], check=False).returncode != 0:
        raise Refusal("the program is missing or older than its sources: run tools/build")
    return (TOP / PROGRAM).read_bytes()


def without_links(name: str, data: bytes, names: list[str]) -> bytes:
    """A document in which links to files that are not packed are their plain texts."""

    def kept(link: re.Match[bytes]) -> bytes:
        target = link[2].decode().partition("#")[0]
        path = os.path.normpath(PurePosixPath(name).parent / target)
        is_packed = any(other == path or other.startswith(f"{path}/") for other in names)
        return link[0] if ":" in target or not target or is_packed else link[1]

    return LINK.sub(kept, data)


def files(facts: str) -> dict[str, Packed]:
    """The packed files by their names, each with its bytes and whether it can be run."""
    packed: dict[str, Packed] = {"bin/script_main": (program(), True),
                                 "RELEASE": (facts.encode(), False)}
    names = run("git", "ls-files", "-z", *PACKED).split("\0")[:-1]
    for name in names:
        path = TOP / READMES.get(name, Path(name))
        data = path.read_bytes()
        packed[name] = (without_links(name, data, names) if path.suffix == ".md" else data,
                        os.access(path, os.X_OK))
    sums = "".join(
        f"{hashlib.sha256(packed[name][0]).hexdigest()}  {name}\n" for name in sorted(packed)
    )
    packed["SHA256SUMS"] = (sums.encode(), False)
    return packed


def archive(folder: str, packed: Mapping[str, Packed], time: int) -> bytes:
    """The bytes of the archive, which depend only on the packed files."""
    written = io.BytesIO()
    with gzip.GzipFile(fileobj=written, mode="wb", filename="", mtime=0) as zipped, tarfile.TarFile(
        fileobj=cast(IO[bytes], zipped), mode="w", format=tarfile.PAX_FORMAT
    ) as tar:
        for name in sorted(packed):
            data, can_run = packed[name]
            entry = tarfile.TarInfo(f"{folder}/{name}")
            entry.size, entry.mtime, entry.mode = len(data), time, 0o755 if can_run else 0o644
            tar.addfile(entry, io.BytesIO(data))
    return written.getvalue()


def release(asked: argparse.Namespace) -> Path:
    """Writes the archive, and answers its path."""
    if run("git", "status", "--porcelain"):
        raise Refusal("the tree has changes that are in no commit")
    commit = run("git", "rev-parse", "HEAD").strip()
    gate = gate_line(asked.gate, commit)
    version = run(TOP / "zorvleid", "--version").split()[1]
    toolchain = asked.toolchain or run("rt", "version").split("\n")[0]
    facts = (
        f"zorvleid {version}\ncommit: {commit}\ntoolchain: {toolchain}\ngate: {gate}\ntarget: "
        f"{TARGET}\n"
    )
    folder = f"zorvleid-{version}-{TARGET}"
    data = archive(folder, files(facts), int(run("git", "log", "-1", "--format=%ct")))
    path = Path(asked.into) / f"{folder}.tar.gz"
    beside = path.with_name(f".{path.name}.{os.getpid()}.part")
    try:
        beside.write_bytes(data)
        os.replace(beside, path)
    except OSError as error:
        beside.unlink(missing_ok=True)
        raise Refusal(f"{path}: {error.strerror}") from None
    return path


def main() -> int:
    parser = argparse.ArgumentParser(
        prog="tools/release", description="Packs a built program that passed the gate."
    )
    parser.add_argument(
        "--gate", metavar="LOG", type=Path, required=True, help="what .ci/run wrote on this commit"
    )
    parser.add_argument("--into", metavar="FOLDER", type=Path, default=Path(),
                        help="where the file goes (left out: here)")
    parser.add_argument("--toolchain", metavar="TEXT",
                        help="what the program was built with (left out: what rt version says)")
    try:
        print(release(parser.parse_args()))
    except Refusal as refusal:
        print(f"no release: {refusal}", file=sys.stderr)
        return 1
    return 0


if __name__ == "__main__":
    sys.exit(main())
