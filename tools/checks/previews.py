"""tools/preview with a stub for the toolchain, which says what the real one says.

The stub may make a program for a while, as the real one does. Then the program is kept.
"""

import os
import shutil
import subprocess
import sys
import tempfile
from collections.abc import Callable
from dataclasses import dataclass
from pathlib import Path

from .tally import Tally

STUB = r"""#!{python} -S
import os, shutil, sys, tempfile, time
if sys.argv[1:] == ["version"]:
    print(os.environ.get("KIT", "a kit"))
    sys.exit(0)
assert sys.argv[1:3] == ["try", "--seconds"] and sys.argv[4] == "--"
assert os.getcwd().endswith("crates/script_main")
if "MADE" in os.environ:
    with tempfile.TemporaryDirectory() as folder:
        shutil.copy(os.environ["MADE"], folder + "/program")
        time.sleep(0.5)
said, status = os.environ["SAID"], int(os.environ["STATUS"])
if "run=ended" in said:
    print(*sys.argv[5:], sys.stdin.read(), sep="/", end="")
sys.stderr.write(said)
sys.exit(status)
"""
NOTICE = "preview: unproved; sanitizer on\n"
COMPILING = "preview: unproved; sanitizer on; compiling takes one to two minutes\n"
NO_RACES = "races: not looked for, since a kit has no ThreadSanitizer\n"
TOO_MUCH = f"""the end of the program's standard output:
| order 1 1 11
interpreter: no-answer: a call of a function of an `extern` block is not supported
checked: no-answer: the program wrote more than 1048576 bytes to standard output
{NO_RACES}run=no-answer proved=no
"""
FAULT = """checked: fault kind=index-out-of-bounds in=a::main at=src/main.rt:12:17: an index
run=fault proved=no
"""
SLOW = """interpreter: no-answer: the run did not finish within 20000000 steps
checked: no-answer: the program did not end within the time limit
run=no-answer proved=no
"""
REFUSED = "src/main.rt:1:1: error[unknown-name]: cannot find value `a` in this scope\n"


def ended(status: int, own: str = "") -> str:
    """The toolchain's lines about a program that ended, after the program's own standard error."""
    last = f"run=ended status={status} runners=1 races=unchecked proved=no\n"
    return f"{own}checked: ended status={status}\n{NO_RACES}{last}"


@dataclass(frozen=True)
class Case:
    """The toolchain's answer to words, and its status."""

    words: str
    said: str
    status: int = 0

    @property
    def variables(self) -> dict[str, str]:
        return {"SAID": self.said, "STATUS": str(self.status)}


@dataclass(frozen=True)
class Wanted:
    """The wanted answer: the status, standard output, and standard error after the notice."""

    status: int
    output: str = ""
    after: str = ""


def no_answer(why: str, status: int) -> Wanted:
    return Wanted(126, after=f"preview: {why} (rt try ends with status {status})\n")


CASES = (
    (Case("run a.script", ended(0)), Wanted(0, "run/of the file")),
    (Case("run --workers 4 a.script", ended(0)), Wanted(0, "run/--workers/4/of the file")),
    (Case("run --workers 4", ended(1), 1), Wanted(1, "run/--workers/4/of the input")),
    (Case("check -", ended(0)), Wanted(0, "check/of the input")),
    (Case("generate 3 1", ended(0)), Wanted(0, "generate/3/1/of the input")),
    (
        Case("run", ended(5, "refused: line 3: Head\n"), 5),
        Wanted(5, "run/of the input", "refused: line 3: Head\n"),
    ),
    (
        Case("run", TOO_MUCH, 6),
        no_answer(
            "more than 1 MiB of output, which a preview cannot show: build the program first",
            6,
        ),
    ),
    (
        Case("run", FAULT, 4),
        no_answer("the program stopped at src/main.rt:12:17: an index", 4),
    ),
    (Case("run", SLOW, 6), no_answer("the program did not end within the time limit", 6)),
    (
        Case("run", REFUSED + "run=none proved=no\n", 1),
        Wanted(
            126,
            after=REFUSED + "preview: the program does not compile (rt try ends with status 1)\n",
        ),
    ),
)

Ran = Callable[[str, dict[str, str]], tuple[int, str, str]]


def previews(top: Path, folder: Path) -> Ran:
    """Makes a tree with the real tools/preview in a folder, and gives what runs it on words."""
    for it in ("copy/tools", "copy/crates/script_main/src", "bin"):
        (folder / it).mkdir(parents=True)
    for name in ("preview", "preview.py", "__init__.py", "places.py"):
        shutil.copy2(top / "tools" / name, folder / "copy/tools")
    unwanted = shutil.ignore_patterns("__pycache__")
    shutil.copytree(top / "tools/building", folder / "copy/tools/building", ignore=unwanted)
    (folder / "copy/crates.txt").write_text("script_main:\n", encoding="utf-8")
    (folder / "a.script").write_text("of the file", encoding="utf-8")
    (folder / "bin/python3").symlink_to(sys.executable)

    def run(words: str, variables: dict[str, str]) -> tuple[int, str, str]:
        ran = subprocess.run(
            [folder / "copy/tools/preview", *words.split()],
            input="of the input",
            capture_output=True,
            text=True,
            check=False,
            cwd=folder,
            env={"PATH": f"{folder}/bin:/usr/bin:/bin", "TMPDIR": str(folder), **variables},
        )
        return ran.returncode, ran.stdout, ran.stderr

    return run


def check(top: Path, program: Path, tally: Tally) -> None:
    """Reports each preview with a wrong end."""
    with tempfile.TemporaryDirectory() as name:
        folder = Path(name)
        run = previews(top, folder)

        def tell(words: str, wanted: tuple[int, str, str], **variables: str) -> None:
            got = run(words, variables)
            fault = None if got == wanted else f"{wanted} is wanted, and it is {got}"
            tally.tell(f"tools/preview {words}", fault)

        missing = "the program has to be compiled, and the toolchain (rt) is missing\n"
        tell("run a.script", (127, "", missing))
        (folder / "bin/rt").write_text(STUB.replace("{python}", sys.executable), encoding="utf-8")
        (folder / "bin/rt").chmod(0o755)
        for case, wanted in CASES:
            whole = (wanted.status, wanted.output, COMPILING + wanted.after)
            tell(case.words, whole, **case.variables)
        tell("run b.script", (3, "", "read fault: b.script: no such file\n"))
        tell("run copy", (3, "", "read fault: copy: it is a folder\n"))
        usage = "tools/preview takes the words of a command, as in tools/preview run FILE\n"
        tell("", (2, "", usage))
        left = [*sorted(os.listdir(folder)), *sorted(os.listdir(folder / KEPT))]
        stays = ["a.script", "bin", "copy"]
        tally.tell("what previews leave", None if left == stays else f"there are {left}")
        check_kept(folder, program, run, tally)


# --- Programs that are kept ---

KEPT = "copy/crates/script_main/out/preview"
SCRIPT = "gpu-script 1\nstream 1 normal 16\nflush 0\n"
ANSWER = "ok streams 1 actions 1 flushes 1\n"


def check_kept(folder: Path, program: Path, run: Ran, tally: Tally) -> None:
    """A program that works is kept until a source or the toolchain changes."""
    (folder / "a.script").write_text(SCRIPT, encoding="utf-8")
    source = folder / "copy/crates/script_main/src/main.rt"
    stub = Case("check a.script", ended(0)).variables | {"MADE": str(program)}
    by_stub = (0, f"check/{SCRIPT}", COMPILING)
    by_kept = (0, ANSWER, NOTICE)
    much = {**stub, "SAID": TOO_MUCH, "STATUS": "6"}

    def tell(
        what: str, wanted: tuple[int, str, str], variables: dict[str, str], files: int
    ) -> None:
        got, left = run("check a.script", variables), os.listdir(folder / KEPT)
        fault = None if got == wanted else f"{wanted} is wanted, and it is {got}"
        tally.tell(f"a preview {what}", fault or (None if len(left) == files else f"kept: {left}"))

    tell("of a toolchain whose program does nothing", by_stub, {**stub, "MADE": "/bin/true"}, 0)
    tell("that is the first one", by_stub, stub, 1)
    tell("after it", by_kept, stub, 1)
    source.write_text("edited", encoding="utf-8")
    tell("after an edit", by_stub, stub, 1)
    tell("after that", by_kept, stub, 1)
    tell("with another toolchain", by_stub, {**stub, "KIT": "another"}, 1)
    source.write_text("edited again", encoding="utf-8")
    tell("with too much output", (0, ANSWER, COMPILING + NOTICE), much, 1)
    kept = next((folder / KEPT).iterdir())
    kept.write_text("#!/bin/sh\nkill -ABRT $$\n", encoding="utf-8")
    tell("of a kept program that stops", (0, f"check/{SCRIPT}", NOTICE + COMPILING), stub, 1)
    shutil.rmtree(folder / KEPT)
    (folder / KEPT).write_text("")
    got = run("check a.script", stub)
    tally.tell("a preview that can keep nothing", None if got == by_stub else f"it is {got}")
