"""tools/check itself: parts side by side, a line for each, one line on a terminal, and the list.

Stubs stand for the parts: two that wait for each other, one with a fault, one that stops, and one
that fails only the first time. Such stubs stand for trials of the selftest too.
"""

import contextlib
import io
import os
import pty
import re
import subprocess
import sys
import tempfile
from collections.abc import Mapping
from pathlib import Path

from tools import checks
from tools.checks import whole
from tools.checks.tally import Tally

MOST = 4 * 60 * 4  # seconds of a processor that all parts may take: four minutes on four
# Runs the parts that its words name with their usual seconds, as many at once as the first says.
DRIVER = """import sys
from tools.checks import side_by_side
from tools.checks.tally import Tally
tally = Tally()
usual = {part: int(seconds) for part, seconds in (word.split("=") for word in sys.argv[2:])}
side_by_side.run_all(usual, lambda part: ["./stub", part], tally, int(sys.argv[1]))
sys.exit(tally.end())
"""
STUB = """#!/bin/sh
echo $1 >> begun
case $1 in
bad) echo failed: a thing: it is off; echo and so on; echo 1 passed, 1 failed; exit 1 ;;
stops) echo oh no >&2; exit 3 ;;
shy)
    if [ "$(grep -c shy begun)" = 1 ]; then
        echo failed: shy: it is busy; echo 1 passed, 1 failed; exit 1
    fi
    echo 2 passed, 0 failed ;;
left | right)
    for tick in $(seq 150); do
        if grep -q left begun && grep -q right begun; then
            echo 2 passed, 0 failed
            exit
        fi
        sleep 0.1
    done
    echo failed: alone; echo 0 passed, 1 failed; exit 1 ;;
*) echo 2 passed, 0 failed ;;
esac
"""
PARTS = ("left=9", "right=9", "bad=1", "stops=1", "shy=1")
SECONDS = r"\d+ s \(\d+ s of a processor\)"
BESIDE, AGAIN = "beside others: ", f"{SECONDS}, which is tried again by itself"
LAST = ["failed: a thing: it is off", "failed: stops: it ended with 3", "7 passed, 2 failed"]
# How often each line comes. On a terminal those stay that have no seconds of one part.
LINES = {
    f"{BESIDE}failed: a thing: it is off": 1, f"{BESIDE}and so on": 1, f"{BESIDE}oh no": 1,
    f"{BESIDE}failed: stops: it ended with 3": 1, f"{BESIDE}failed: shy: it is busy": 1,
    "failed: a thing: it is off": 2, "and so on": 1, "oh no": 1,
    "failed: stops: it ended with 3": 2,
    r"5 parts in \d+ s; most seconds of a processor: (\w+ \d+, ){4}\w+ \d+": 1,
    "7 passed, 2 failed": 1,
}
SUMS = dict.fromkeys((
    f"{BESIDE}bad: 1 passed, 1 failed, {AGAIN}", f"{BESIDE}stops: 0 passed, 1 failed, {AGAIN}",
    f"{BESIDE}shy: 1 passed, 1 failed, {AGAIN}",
    f"left: 2 passed, 0 failed, {SECONDS}", f"right: 2 passed, 0 failed, {SECONDS}",
    f"bad: 1 passed, 1 failed, {SECONDS}, by itself",
    f"stops: 0 passed, 1 failed, {SECONDS}, by itself",
    f"shy: 2 passed, 0 failed, {SECONDS}, by itself"), 1)


def run(top: Path, folder: Path, *words: str) -> "subprocess.CompletedProcess[str]":
    """Runs stubs side by side, with nobody at a terminal."""
    (folder / "begun").unlink(missing_ok=True)
    return subprocess.run([sys.executable, "-B", "-c", DRIVER, *words], capture_output=True,
                          text=True, check=False, cwd=folder, env={**os.environ,
                                                                   "PYTHONPATH": str(top)})


def on_a_terminal(top: Path, folder: Path, *words: str) -> str:
    """What a terminal is told while stubs run side by side."""
    (folder / "begun").unlink(missing_ok=True)
    master, slave = pty.openpty()
    with subprocess.Popen([sys.executable, "-B", "-c", DRIVER, *words], stdout=slave, stderr=slave,
                          cwd=folder, env={**os.environ, "PYTHONPATH": str(top)}):
        os.close(slave)
        told = b""
        try:
            while part := os.read(master, 1 << 16):
                told += part
        except OSError:  # the end of a terminal
            pass
    os.close(master)
    return told.decode()


def check(top: Path, program: Path, tally: Tally) -> None:
    """Reports each thing that tools/check says or does not say of its parts."""
    with tempfile.TemporaryDirectory() as name:
        folder = Path(name)
        (folder / "stub").write_text(STUB)
        (folder / "stub").chmod(0o755)
        check_lines(top, folder, tally)
        check_terminal(top, folder, tally)
        ran = run(top, folder, "1", "short=1", "long=9", "middle=5")
        begun = (folder / "begun").read_text().split()
        tally.tell("the parts that take longest come first",
                   None if begun == ["long", "middle", "short"] else f"{begun}, and {ran}")
    check_trials(tally)
    check_list(top, tally)
    check_some(top, program, tally)


def tell_lines(tally: Tally, what: str, lines: list[str], wanted: Mapping[str, int]) -> None:
    """Reports each line that does not come as often as it should, and lines too many."""
    for line, often in wanted.items():
        count = sum(re.fullmatch(line, got) is not None for got in lines)
        tally.tell(f"{what}, {line}", None if count == often else f"{count} in {lines}")
    tally.tell(f"{what}, the lines", None if len(lines) == sum(wanted.values()) else str(lines))


def check_lines(top: Path, folder: Path, tally: Tally) -> None:
    """Two parts run at once, each has its line, and a fault or a stop counts as one.

    What fails beside others counts if it fails by itself too, and is named in the last lines.
    """
    ran = run(top, folder, "2", *PARTS)
    lines = ran.stdout.splitlines()
    is_so = (ran.returncode, ran.stderr, sorted(lines[-3:])) == (1, "", sorted(LAST))
    tally.tell("parts side by side, the last lines", None if is_so else str(ran))
    tell_lines(tally, "parts side by side", lines, LINES | SUMS)


def check_terminal(top: Path, folder: Path, tally: Tally) -> None:
    """A terminal has one line, written anew; faults and the last lines stay."""
    told = on_a_terminal(top, folder, "2", *PARTS)
    is_so = "\r0 of 5 parts, 0 passed, 0 failed, 0:00; now: left, right" in told
    tally.tell("a terminal, far on", None if is_so else repr(told))
    lines = [line.rpartition("\r")[2] for line in told.replace("\r\n", "\n").split("\n")[:-1]]
    tell_lines(tally, "a terminal", lines, LINES)


def trial(what: str, *faults: str | None) -> whole.Trial:
    """A trial that fails so, or not, each time that it is tried."""
    left = list(faults)
    return whole.Trial("", what, lambda _copy, _program: left.pop(0))


def check_trials(tally: Tally) -> None:
    """A trial that fails beside others counts if it fails by itself too."""
    for lanes, trials, wanted in (
            (2, [trial("shy", "busy", None), trial("bad", "off", "off\nstill"),
                 trial("good", None)],
             ["shy (0 s), which fails beside others: busy",
              "bad (0 s), which fails beside others: off", "good (0 s)", "shy, by itself (0 s)",
              "failed: bad: off", "still", "bad, by itself (0 s)", "failed: bad: off",
              "2 passed, 1 failed"]),
            (1, [trial("bad", "off")],
             ["failed: bad: off", "bad (0 s)", "failed: bad: off", "0 passed, 1 failed"])):
        own, said = Tally(talkative=True), io.StringIO()
        with contextlib.redirect_stdout(said):
            whole.try_all(trials, [Path(str(lane)) for lane in range(lanes)], Path(), own)
            own.tell_again()
            own.end()
        got = said.getvalue().splitlines()
        tally.tell(f"trials on {lanes} copies", None if got == wanted else f"they say {got}")


def check_list(top: Path, tally: Tally) -> None:
    """The list has each module that is a part, and its usual seconds, which are not too many."""
    ran = subprocess.run([top / "tools/check", "--list"], capture_output=True, text=True,
                         check=False)
    rows = re.findall(r"^(\w+) +(\d+)  (\S.*)$", ran.stdout, re.MULTILINE)
    usual = {part: int(seconds) for part, seconds, _ in rows}
    all_of_them = usual.pop("all", 0)
    modules = {path.stem for path in (top / "tools/checks").glob("*.py")
               if "\ndef check(" in path.read_text(encoding="utf-8")} - {"__init__"}
    tally.tell("the list of parts", None if modules == usual.keys()
               else f"it has {sorted(usual)}, and the modules are {sorted(modules)}")
    counted = sum(seconds for part, seconds in usual.items() if part not in checks.ASIDE)
    tally.tell("the seconds of all parts", None if 0 < counted == all_of_them <= MOST
               else f"they are {counted}, {all_of_them} are listed, and {MOST} are allowed")


def check_some(top: Path, program: Path, tally: Tally) -> None:
    """Some parts that are asked for are run side by side, and no others."""
    ran = subprocess.run(
        [top / "tools/check", "--only", "widths", "tour", "--program", program],
        capture_output=True, text=True, check=False)
    found = dict(re.findall(rf"^(\w+): (\d+) passed, 0 failed, {SECONDS}$", ran.stdout,
                            re.MULTILINE))
    count = sum(map(int, found.values()))
    is_so = found.keys() == {"widths", "tour"} and ran.stdout.endswith(
        f"\n{count} passed, 0 failed\n")
    tally.tell("two parts that are asked for", None if is_so else str(ran))
