"""What `reduce` finds: planted failures within 500 lines, and how it is called.

Each failure is planted into a script of `generate`, and looked for by a command of a user. The
script that is left has to be short, and tests/model.py has to see the failure in it too.
"""

import re
import signal
import subprocess
import tempfile
import time
from collections.abc import Callable, Sequence
from dataclasses import dataclass
from pathlib import Path

from tests import hostile, model
from tools.checks.tally import Tally
from zorvleid.reader import read_script
from zorvleid.reduce import Search, text_of

SIZE, SEED = 31, 7  # of the script into which failures are planted
LEAST, MOST = 500, 12  # lines before, and lines that have to become fewer
SECONDS, PAUSE, FRONT = 300, 0.1, 380
Ran = subprocess.CompletedProcess[bytes]


@dataclass(frozen=True)
class Failure:
    """A failure: the planted lines, the command, and what the model sees of it."""

    name: str
    planted: tuple[tuple[int, int, str], ...]  # a stream, after which `finish` of it, and lines
    shell: str  # in which $0 is the program
    sees: Callable[[str], object]  # of the output


MIDDLE, LAST = 15, -1  # after these the next command goes to place 0 of a ring
TEXEL = "00000000 00000000 fedcba98"
FAILURES = (
    Failure("an unknown command", ((2, MIDDLE, "put 0 7fe00003 1 2\nflush 3\nfinish"),),
            '"$0" run | grep -q "^lost . 3 "', re.compile(r"^lost . 3 ", re.MULTILINE).search),
    Failure("a texel that comes through a copy after a fence",
            ((1, MIDDLE, "put 0 20400004 63 2 2 20800007 63 1 1 1 1 fedcba98 20000003 3e7 0 12\n"
                         "flush 32\nfinish\nput 32 20\nflush 0\nfinish"),
             (4, LAST, "put 0 20400004 64 3 3 20a00009 63 1 1 64 2 2 1 1\nflush 13 1 999")),
            f'"$0" run | grep -q "{TEXEL}"', lambda text: TEXEL in text),
    Failure("a wait that a close ends",
            ((3, LAST, "flush 0\nclose"), (4, LAST, "flush 0 3 9999")),
            '"$0" run | grep -q "^mark .* closed "', lambda text: " closed " in text),
)
# Words, the status, and how the line on standard error begins.
REFUSED = (
    (("names.script", "--", "no/such/command"), 126, "the command does not start: no/such/command"),
    (("names.script", "--seconds", "1", "--", "sleep", "9"), 5, "refused: the command takes long"),
    (("names.script", "--", "grep", "-q", "^#"), 5, "refused: the command ends with status 0, and"),
    (("names.script", "--seconds", "0", "--", "true"), 2, "bad command line: "),
    (("names.script",), 2, "bad command line: "),
    (("nowhere", "--", "true"), 3, "read fault: nowhere: no such file"),
    (("names.stdout", "--", "true"), 5, "names.stdout:1:1: "),
    (("-", "--", "true"), 5, "-:1:1: "),
)


def check(top: Path, program: Path, tally: Tally) -> None:
    """Reports each failure that is not found, or whose script stays long."""
    for failure in FAILURES:
        tally.tell(f"reduce of {failure.name}", fault_of(top, program, failure))
    for words, status, said in REFUSED:
        ran = called(top, words)
        is_so = (ran.returncode, ran.stdout) == (status, b"") and ran.stderr.count(b"\n") == 1
        is_so = is_so and ran.stderr.decode().startswith(said)
        tally.tell(f"reduce {' '.join(words)}, which is refused", None if is_so else str(ran))
    ran = called(top, ("names.script", "--", "grep", "-q", "^flush", "{}"))
    lines = ran.stdout.decode().split("\n")
    is_so = ran.returncode == 0 and lines[:1] == ["gpu-script 2"] and len(lines) == 4
    tally.tell("reduce with the name of a file", None if is_so else str(ran))
    for number in (signal.SIGINT, signal.SIGTERM):
        tally.tell(f"reduce, stopped by {number.name}", fault_of_stop(top, number))
    for seed in range(1, 6):
        tally.tell(f"reduce of the hostile script {seed}", fault_of_search(seed))


def called(top: Path, words: Sequence[str], data: bytes = b"") -> Ran:
    """The tool as it is called, in the folder of the examples."""
    return subprocess.run([top / "python/run", "reduce", *words], input=data, capture_output=True,
                          check=False, cwd=top / "examples", timeout=SECONDS)


def planted(failure: Failure) -> str:
    """A script in which lines stand after a `finish` of some streams."""
    head, *streams = model.generate(SIZE, SEED).split("stream ")
    for number, which, lines in failure.planted:
        kept = streams[number - 1].rstrip("\n").split("\n")
        places = [at for at, line in enumerate(kept, 1) if line == "finish"]
        kept.insert(places[which], lines)
        streams[number - 1] = "\n".join(kept) + "\n"
    return head + "".join(f"stream {stream}" for stream in streams)


def fault_of(top: Path, program: Path, failure: Failure) -> str | None:
    """The fault of the script that is left of a failure."""
    script = planted(failure)
    if script.count("\n") < LEAST or not failure.sees(output_of(script)):
        return "it is not planted"
    with tempfile.NamedTemporaryFile() as file:
        file.write(script.encode())
        file.flush()
        ran = called(top, (file.name, "--", "sh", "-c", failure.shell, str(program)))
    left, said = ran.stdout.decode(), ran.stderr.decode().split("\n")
    if ran.returncode != 0 or not failure.sees(output_of(left)):
        return str(ran)
    if not said[-2].startswith(f"done, status 0: {left.count(chr(10))} of "):
        return f"it says {said}"
    return None if left.count("\n") < MOST else f"these lines are left:\n{left}"


def output_of(script: str) -> str:
    """What the model gives."""
    return model.answer(["run"], script.encode())[1]


# Ends with 3 for long scripts that have a flush, and waits for ever with a shorter one of these.
WAITS = ('s=$(cat); case $s in *"flush 29"*) ;; *) exit 1 ;; esac; [ ${#s} -lt 200 ] || exit 3; '
         'echo $$ > "$0.part"; mv "$0.part" "$0"; exec sleep 900')


def fault_of_stop(top: Path, number: signal.Signals) -> str | None:
    """The fault of a search that a signal ends: the best is written, and the command is killed."""
    with tempfile.TemporaryDirectory() as folder:
        waits = Path(folder) / "waits"
        words = [str(top / "python/run"), "reduce", "compositor.script", "--seconds", "900", "--",
                 "sh", "-c", WAITS, str(waits)]
        with subprocess.Popen(words, stdout=subprocess.PIPE, stderr=subprocess.PIPE,
                              cwd=top / "examples") as process:
            until = time.monotonic() + SECONDS
            while not waits.exists() and time.monotonic() < until:
                time.sleep(PAUSE)
            process.send_signal(number)
            output, said = process.communicate(timeout=SECONDS)
        command = int(waits.read_text())
    is_best = b"flush 29" in output and 200 <= len(output.rstrip()) < FRONT
    is_so = process.returncode == 128 + number and is_best and b"stopped, status 3: " in said
    return None if is_so and not Path(f"/proc/{command}").exists() else (
        f"it ends with {process.returncode}: {output!r}, {said!r}")


def fault_of_search(seed: int) -> str | None:
    """The fault of a search for which any script will do, and of one that needs a flush."""
    text = text_of(read_script(hostile.script(seed, hostile.Brief)))
    whole = text.script()
    if whole is None:
        return "its text gives no script"
    for wanted, most in (("", 1), ("\nflush", 3)):
        search = Search(text, whole, lambda script: wanted in script)
        search.run()
        if search.script.count("\n") > most or wanted not in search.script:
            return f"{search.script!r} is left"
    return None
