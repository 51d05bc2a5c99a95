"""How the commands behave at the edges: a reader that leaves, a terminal, a full disk, odd names.

The tools and the program end alike, and say the same in the same words. They stand in a tree with
the program at hand, so nothing is built.
"""

import os
import pty
import resource
import subprocess
import tempfile
from collections.abc import Sequence
from pathlib import Path

from tools.checks.command_lines import Tree
from tools.checks.tally import Tally

SCRIPT, OUTPUT = "examples/names.script", "examples/names.stdout"
UNREAD = 141  # what a shell makes of SIGPIPE
AWAITED = "reading standard input, up to Ctrl-D"
ODD, SHOWN = "no\nfi\x7fle", "no\\x0afi\\x7fle"
NAMING = (["run"], ["check"], ["verify"], ["log"], ["assemble"], ["disassemble"],
          ["compare", OUTPUT])
SECONDS = 300


def check(top: Path, program: Path, tally: Tally) -> None:
    """Reports each command that behaves otherwise."""
    with tempfile.TemporaryDirectory() as name:
        tree = Tree(top, Path(name))
        tree.build(program)
        check_commands(tree.top, program, Path(name), tally)
    ran = called(top, ["--help"], ".ci/run")
    is_help = ran.returncode == 0 and b".ci/run --help" in ran.stdout
    tally.tell(".ci/run --help", None if is_help else str(ran))
    ran = called(top, ["-x"], ".ci/run")
    tally.tell(".ci/run -x", None if (ran.returncode, ran.stdout) == (2, b"") else str(ran))


def check_commands(top: Path, program: Path, folder: Path, tally: Tally) -> None:
    """Reports each command of a tree that behaves otherwise."""
    script = subprocess.run([program, "generate", "800", "1"], capture_output=True, check=True)
    large = folder / "large.script"
    large.write_bytes(script.stdout)
    lines: tuple[list[str | Path], ...] = (
        ["run", large], ["generate", "2000", "1"], ["disassemble", large])
    for line in lines:
        tally.tell(f"{line[0]} | head -1", fault_of_unread(top, line))
    tally.tell("pictures onto a full disk", fault_of_full_disk(top, folder))
    for words, given in ((["check"], SCRIPT), (["log"], OUTPUT), (["disassemble"], SCRIPT)):
        tally.tell(f"{words[0]} at a terminal", fault_of_terminal(top, words, top / given))
    for words in NAMING:
        ran = called(top, [*words, ODD])
        wanted = (3, b"", f"read fault: {SHOWN}: no such file\n")
        got = (ran.returncode, ran.stdout, ran.stderr.decode())
        tally.tell(f"{words[0]} of an odd name", None if got == wanted else f"it ends with {got}")


def called(
    top: Path, words: Sequence[str | Path], command: str = "zorvleid"
) -> "subprocess.CompletedProcess[bytes]":
    """A command as it is called at the top, with nothing on standard input."""
    return subprocess.run([top / command, *words], stdin=subprocess.DEVNULL, capture_output=True,
                          check=False, cwd=top, timeout=SECONDS)


def fault_of_unread(top: Path, words: Sequence[str | Path]) -> str | None:
    """A command whose reader leaves ends as by SIGPIPE, and says nothing."""
    with subprocess.Popen([top / "zorvleid", *words], stdin=subprocess.DEVNULL, cwd=top,
                          stdout=subprocess.PIPE, stderr=subprocess.PIPE) as ran:
        assert ran.stdout is not None and ran.stderr is not None
        first = ran.stdout.readline()
        ran.stdout.close()
        said = ran.stderr.read()
        status = ran.wait(SECONDS)
    is_so = first and not said and status in (UNREAD, -13)
    return None if is_so else f"it ends with {status}, and says {said!r} after {first!r}"


def fault_of_full_disk(top: Path, folder: Path) -> str | None:
    """Where no file can be written, the folders that were made are gone again."""
    into = folder / "new/deep"
    ran = subprocess.run(
        [top / "view/run", "pictures", "--into", into], stdin=(top / OUTPUT).open("rb"),
        capture_output=True, check=False,
        preexec_fn=lambda: resource.setrlimit(resource.RLIMIT_FSIZE, (0, 0)))
    is_so = ran.returncode == 4 and ran.stderr.startswith(b"write fault: ")
    return None if is_so and not into.parent.exists() else f"{ran}; there is {into.parent.exists()}"


def fault_of_terminal(top: Path, words: Sequence[str], given: Path) -> str | None:
    """At a terminal a command says that it reads from there."""
    ours, theirs = pty.openpty()
    with subprocess.Popen([top / "zorvleid", *words], stdin=theirs, stdout=subprocess.PIPE,
                          stderr=subprocess.PIPE, cwd=top) as ran:
        os.close(theirs)
        os.write(ours, given.read_bytes() + b"\x04")
        _, said = ran.communicate(timeout=SECONDS)
    os.close(ours)
    is_so = ran.returncode == 0 and said.decode() == AWAITED + "\n"
    return None if is_so else f"it ends with {ran.returncode}, and says {said!r}"
