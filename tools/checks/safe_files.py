"""No tool harms a file that it reads, takes more than it may, or shows a fault of Python.

- If an output and an input are one file, by device and inode, the tool refuses before it reads
  anything. The same holds for standard input and output, for links, and for files of a folder.
- An input that is too long is reported with its limit, with little memory at hand.
- A folder without rights, a read-only file system and Ctrl-C are reported as such.
"""

import errno
import os
import signal
import subprocess
import sys
import tempfile
import time
from collections.abc import Iterator, Sequence
from concurrent.futures import ThreadPoolExecutor
from pathlib import Path
from unittest import mock

from tools.checks.command_lines import Tree
from tools.checks.tally import Tally
from view import files
from zorvleid.console import WriteFault

# Lines of the shell, and the name that is refused. $Z is the command.
OVERWRITING = (
    ("timeline --page s.script --script s.script a.out", "s.script"),
    ("timeline --page a.out < a.out", "a.out"),
    ("timeline --page link --trace trace a.out", "link"),
    ("timeline --page page --trace hard a.out", "hard"),
    ("timeline --page /dev/fd/7 a.out 7<> a.out", "/dev/fd/7"),
    ("timeline --page - a.out >> a.out", "a.out"),
    ("compare --page a.out a.out b.out", "a.out"),
    ("compare --page link b.out - < a.out", "link"),
    ("compare a.out b.out >> b.out", "b.out"),
    ("pictures --into into a.out", "into/index.html"),
    ("pictures --into into < hard", "into/index.html"),
    ("log a.out >> link", "a.out"),
    ("log --script s.script a.out >> s.script", "s.script"),
    ("log < a.out >> a.out", "standard input"),
    ("stats a.out >> a.out", "a.out"),
    ("explain < both >> both", "standard input"),
    ("assemble s.commands >> s.commands", "s.commands"),
    ("disassemble < s.script >> s.script", "standard input"),
    ("run s.script >> s.script", "s.script"),
    ("check - < s.script >> s.script", "standard input"),
    ("verify both >> both", "both"),
)
# Lines that read and write, but no file twice.
HARMLESS = (
    "timeline --page page a.out", "timeline --page - < a.out > page", "log a.out >> page",
    "timeline --page /dev/null --script /dev/null /dev/null", "log < /dev/null > /dev/null",
)
# What has no end, and the name and the limit that are told of it.
OUTPUT_LIMIT, SCRIPT_LIMIT = "67,108,864", "16,777,216"
ENDLESS = (
    ("log /dev/zero", "/dev/zero", OUTPUT_LIMIT),
    ("pictures < /dev/zero", "standard input", OUTPUT_LIMIT),
    ("timeline --page page /dev/zero", "/dev/zero", OUTPUT_LIMIT),
    ("timeline --page page --script /dev/zero a.out", "/dev/zero", SCRIPT_LIMIT),
    ("compare a.out /dev/zero", "/dev/zero", OUTPUT_LIMIT),
    ("stats /dev/zero", "/dev/zero", OUTPUT_LIMIT),
    ("explain < /dev/zero", "standard input", SCRIPT_LIMIT),
    ("explain --whole < /dev/zero", "standard input", OUTPUT_LIMIT),
    ("assemble /dev/zero", "/dev/zero", OUTPUT_LIMIT),
    ("disassemble /dev/zero", "/dev/zero", SCRIPT_LIMIT),
    ("run /dev/zero", "it", SCRIPT_LIMIT),
    ("verify /dev/zero", "it", SCRIPT_LIMIT),
    ("verify --whole /dev/zero", "it", OUTPUT_LIMIT),
)
KILOBYTES = 1_000_000  # of memory while these run
# Runs a tool as a user without rights, once Python has read all its files.
AS_NOBODY = """import os, sys, view.__main__
if os.getuid() == 0:
    os.setgroups([]), os.setgid(65534), os.setuid(65534)
sys.argv = ["view", *sys.argv[1:]]
sys.exit(view.__main__.main())
"""
FORBIDDEN = (
    ("timeline --page shut/page", "shut/page: Permission denied"),
    ("timeline --page shut/deep/page", "shut/deep/page: Permission denied"),
    ("timeline --page link", "link: Permission denied"),
    ("timeline --page own", "own: Permission denied"),
    ("pictures --into shut/into", "shut/into: Permission denied"),
    (f"timeline --page {'x' * 256}", f"{'x' * 256}: File name too long"),
)
INTERRUPTED = (("zorvleid", "log"), ("zorvleid", "assemble"), ("zorvleid", "--help"),
               ("tools/preview", "run"))
DELAYS = [0.03 * count for count in range(11)]
SECONDS, WORKERS = 300, 4


def check(top: Path, program: Path, tally: Tally) -> None:
    """Reports each file that is harmed, each input without a limit, and each fault of Python."""
    with tempfile.TemporaryDirectory() as name:
        tree = Tree(top, Path(name))
        tree.build(program)
        check_lines(tree, Path(name), tally)
        check_forbidden(tree.top, Path(name), tally)
        check_parts(Path(name), tally)
        check_held(tree, Path(name), tally)
        check_interrupts(top, tree, tally)


def fill(folder: Path, examples: Path) -> dict[str, bytes]:
    """Makes the files of a folder, and gives those that must stay."""
    folder.mkdir()
    (folder / "into").mkdir()
    script, output = ((examples / f"names{end}").read_bytes() for end in (".script", ".stdout"))
    kept = {"a.out": output, "b.out": output, "s.script": script,
            "s.commands": (examples / "names.commands").read_bytes(),
            "both": script + b"journal\n" + output}
    for name, data in kept.items():
        (folder / name).write_bytes(data)
    (folder / "link").symlink_to("a.out")
    (folder / "hard").hardlink_to(folder / "a.out")
    (folder / "into/index.html").symlink_to("../a.out")
    return kept


def check_lines(tree: Tree, folder: Path, tally: Tally) -> None:
    """What is said of each line, its status, and the files after it."""
    rows: list[tuple[str, int | None, str]]
    rows = [(line, 2, f"bad command line: {name} is read and written")
            for line, name in OVERWRITING]
    rows += [(f"ulimit -v {KILOBYTES}; $Z {line}", 7,
              f"input too long: {name} has more than {limit} bytes")
             for line, name, limit in ENDLESS]
    rows += [(line, None, "") for line in HARMLESS]

    def run(number: int) -> str | None:
        line, status, said = rows[number]
        here = folder / str(number)
        kept = fill(here, tree.top / "examples")
        ran = subprocess.run(["sh", "-c", line if "$Z" in line else f"$Z {line}"],
                             capture_output=True, text=True, check=False, cwd=here,
                             env={"PATH": str(tree.path), "Z": str(tree.top / "zorvleid")},
                             timeout=SECONDS)
        harmed = [name for name, data in kept.items() if (here / name).read_bytes() != data]
        if harmed:
            return f"it changes {harmed}"
        if status is None:
            return ran.stderr if "is read and written" in ran.stderr else None
        got = (ran.returncode, ran.stdout, ran.stderr)
        return None if got == (status, "", said + "\n") else f"wanted {said!r}, got {got}"

    with ThreadPoolExecutor(WORKERS) as pool:
        for row, fault in zip(rows, pool.map(run, range(len(rows)))):
            tally.tell(row[0], fault)


def check_forbidden(top: Path, folder: Path, tally: Tally) -> None:
    """A plain user is told which name has no rights, or is too long."""
    folder.chmod(0o755)
    here = folder / "plain"
    (here / "shut/deep").mkdir(parents=True)
    (here / "own").write_bytes(b"old\n")
    (here / "own").chmod(0o444)
    (here / "link").symlink_to("shut/page")
    (here / "shut").chmod(0)
    here.chmod(0o777)
    for line, said in FORBIDDEN:
        with (top / "examples/names.stdout").open("rb") as output:
            ran = subprocess.run([sys.executable, "-B", "-c", AS_NOBODY, *line.split()],
                                 stdin=output, capture_output=True, text=True, check=False,
                                 cwd=here, env={"PYTHONPATH": f"{top}:{top / 'python'}"})
        wanted = (4, "", f"write fault: {said}\n")
        got = (ran.returncode, ran.stdout, ran.stderr)
        tally.tell(f"{line}, by a plain user", None if got == wanted else f"got {got}")
    (here / "shut").chmod(0o755)
    left = sorted(path.name for path in here.iterdir())
    tally.tell("what a plain user leaves",
               None if left == ["link", "own", "shut"] else f"it is {left}")


def check_parts(folder: Path, tally: Tally) -> None:
    """What fails first is told, also where no file can be removed, and files of others stay."""
    here = folder / "parts"
    here.mkdir()
    read_only = OSError(errno.EROFS, os.strerror(errno.EROFS))
    with mock.patch.object(Path, "unlink", side_effect=read_only):
        said = said_of([(here / "page", b"new"), (here / "f/trace", b"new")])
    wanted = f"write fault: {here}/f/trace: No such file or directory"
    tally.tell("a file system that is read-only", None if said == wanted else f"it says {said!r}")
    for part in here.iterdir():
        part.unlink()
    other = here / f".{os.getpid()}.0.part"
    other.write_bytes(b"of another")
    said = said_of([(here / "page", b"new")])
    is_kept = other.exists() and other.read_bytes() == b"of another"
    tally.tell("a part of another", None if is_kept and said else f"it is lost, and {said!r}")


def said_of(made: Sequence[tuple[Path, bytes]]) -> str:
    """What is said of files that cannot be written."""
    try:
        files.write_all(made)
    except (WriteFault, OSError) as fault:
        return str(fault)
    return ""


# --- Ctrl-C ---


def check_held(tree: Tree, folder: Path, tally: Tally) -> None:
    """Ctrl-C waits while Python starts, by the mask that a script in its place reads."""
    if subprocess.run(["env", "--block-signal=INT", "true"], check=False).returncode:
        tally.skip("Ctrl-C while Python starts", "this env holds no signals back")
        return
    stub = folder / "stub/python3"
    stub.parent.mkdir()
    stub.write_text("#!/bin/sh\nwhile read -r name mask; do\n    "
                    '[ "$name" != SigBlk: ] || echo "$mask"\ndone </proc/self/status\n')
    stub.chmod(0o755)
    ran = subprocess.run([tree.top / "zorvleid", "log"], stdin=subprocess.DEVNULL, text=True,
                         capture_output=True, check=False,
                         env={"PATH": f"{stub.parent}:{tree.path}"})
    last = (ran.stdout.split() or ["0"])[-1]  # the first Python only shows that it starts
    is_held = ran.returncode == 0 and int(last, 16) >> (signal.SIGINT - 1) & 1
    tally.tell("Ctrl-C while Python starts", None if is_held else str(ran))


def check_interrupts(top: Path, tree: Tree, tally: Tally) -> None:
    """Ctrl-C ends a tool at once and without a word, however early it comes."""
    rows = [(words, delay) for words in INTERRUPTED for delay in DELAYS]
    with ThreadPoolExecutor(WORKERS) as pool:
        faults = pool.map(lambda row: interrupted(top, tree, *row), rows)
        for words, group in by_words(zip(rows, faults)):
            tally.tell_all(f"Ctrl-C of {' '.join(words)}", group)


Faults = list[tuple[str, str | None]]


def by_words(
    found: Iterator[tuple[tuple[tuple[str, ...], float], str | None]]
) -> Iterator[tuple[tuple[str, ...], Faults]]:
    """The faults of each command line, with their delays."""
    groups: dict[tuple[str, ...], Faults] = {words: [] for words in INTERRUPTED}
    for (words, delay), fault in found:
        if fault is not None:
            groups[words].append((f"after {delay:.2f} s", fault))
    yield from groups.items()


def interrupted(top: Path, tree: Tree, words: Sequence[str], delay: float) -> str | None:
    """The fault of a tool that waits for its input and gets Ctrl-C after some time."""
    reads, writes = os.pipe()
    with subprocess.Popen(
        [top / words[0], *words[1:]], stdin=reads, stdout=subprocess.PIPE,
        stderr=subprocess.PIPE, start_new_session=True, env={"PATH": str(tree.path)},
        preexec_fn=lambda: signal.signal(signal.SIGINT, signal.SIG_DFL),
    ) as tool:
        os.close(reads)
        time.sleep(delay)
        try:
            os.killpg(tool.pid, signal.SIGINT)
        except ProcessLookupError:
            pass  # it has ended
        try:
            said = tool.communicate(timeout=SECONDS)[1].decode()
        except subprocess.TimeoutExpired:
            os.killpg(tool.pid, signal.SIGKILL)
            return "it goes on"
        finally:
            os.close(writes)
    is_ended = tool.returncode in (0, -signal.SIGINT, 128 + signal.SIGINT)
    return None if is_ended and not said else f"status {tool.returncode}, and it says {said!r}"
