"""The tools that answer one question on a run, as they are called.

- Each block `answer` of the documents has a command line after `$`, and then what that writes.
- Wrong words and inputs are refused in one line, with their status and no output.
- An output of 140,000 events is answered within seconds.
"""

import os
import re
import shlex
import subprocess
import tempfile
from collections.abc import Iterator, Sequence
from pathlib import Path

from bench import greatest
from command_line.table import COMMANDS
from tools.checks import prose
from tools.checks.tally import Tally
from view.showing import DISPLAYS

BLOCK = re.compile(r"^```answer\n\$ ([^\n]*)\n(.*?)^```$", re.MULTILINE | re.DOTALL)
TOOLS = ("stats", "who", "state", "verify", "races", "trim", "reduce", "view")
MANY, TRIES = 140_000, 3
# The most seconds for that, of a processor that other parts may share, and of a quiet one.
USUAL_SECONDS, LARGE_SECONDS = 20, 5
LARGE = ("stats --json", "who --image 1 --texel 0,0", "state --json")
Ran = subprocess.CompletedProcess[bytes]
# Words in the folder of the examples, standard input, the status, and how the line begins.
REFUSED = (
    ("stats", "", 5, "refused: the output is empty"),
    ("stats", "x\n", 5, "refused: line 1: no line of an output"),
    ("stats", "order 1 1 11\nfinish 1 2\n", 5, "refused: line 2: "),
    ("stats", "order 1 2 11\n", 5, "refused: line 1: "),
    ("stats", "yes events 0\n", 5, "refused: line 1: the output of verify has no journal"),
    ("stats", "gpu-script 3\n", 5, "refused: line 1: Head"),
    ("stats", "# a comment\ngpu-script 1\nput", 5, "refused: line 3: Word"),
    ("stats nowhere", "", 3, "read fault: nowhere: no such file"),
    ("stats .", "", 3, "read fault: .: it is a folder"),
    ("stats --jsn", "", 2, "bad command line: "),
    ("stats names.stdout names.stdout", "", 2, "bad command line: "),
    ("stats names.stdout --script compositor.script", "", 5,
     "refused: the script is of another run"),
    ("stats names.stdout --script names.stdout", "", 5, "refused: names.stdout: it is no lawful"),
    ("who --image 1 --texel 0,0", "", 5, "refused: the output is empty"),
    ("who --image 1 --texel 0,0", "x\n", 5, "refused: line 1: no line of an output"),
    ("who compositor.stdout --image 1", "", 2, "bad command line: the following arguments are req"),
    ("who compositor.stdout --image 1 --texel 5", "", 2,
     "bad command line: argument --texel: '5' is no place X,Y"),
    ("who compositor.stdout --image x --texel 5,4", "", 2,
     "bad command line: argument --image: 'x' is no number"),
    ("who compositor.stdout --image 9 --texel 0,0", "", 2,
     "bad command line: --image 9: no such image after event 18; there are 1 to 3"),
    ("who compositor.stdout --image 3 --texel 18,0", "", 2,
     "bad command line: --texel 18,0: image 3 is 18 by 11"),
    ("who compositor.stdout --image 3 --texel 0,0 --at 19", "", 2,
     "bad command line: --at 19: the output has 18 events"),
    ("who compositor.stdout --image 3 --texel 0,0 --at 3", "", 2,
     "bad command line: --image 3: no such image after event 3; there are none"),
    ("who nowhere --image 1 --texel 0,0", "", 3, "read fault: nowhere: no such file"),
    ("state", "", 5, "refused: the output is empty"),
    ("state", "finish 1 1\nstream 1 done", 5, "refused: line 1: "),
    ("state names.stdout --at 7", "", 2, "bad command line: --at 7: the output has 6 events"),
    ("state names.stdout --at -1", "", 2, "bad command line: argument --at: '-1' is no number"),
    ("state names.stdout --script compositor.script", "", 5,
     "refused: the script is of another run"),
    ("state names.script", "", 5, "refused: names.script: line 2: this is a script, and no output"),
    ("check --cost", "", 5, "refused: line 1: Head"),
    ("check --cost", "gpu-script 1\nput 0 1\n", 5, "refused: line 2: Order"),
    ("check --cost --jsn", "", 2, "bad command line: unrecognized arguments: --jsn"),
    ("verify --each nowhere", "", 3, "read fault: nowhere: no such file"),
    ("verify --each names.script", "", 3, "read fault: names.script: it is no folder"),
    ("verify --each . --hole", "", 2, "bad command line: unrecognized arguments: --hole"),
    ("stats names.script --program nowhere", "", 126, "the program does not start: nowhere: No s"),
    ("races names.script names.stdout --jsn", "", 2, "bad command line: "),
    ("races nowhere", "", 3, "read fault: nowhere: no such file"),
    ("races -", "", 5, "refused: line 1: Head"),
    ("races names.script -", "", 5, "refused: the output is empty"),
    ("races names.script -", "gpu-journal 2\n", 5, "refused: the script is of another run"),
    ("races two_texels.script -", "order 1 1 11\nfinish 1", 5, "refused: line 2: "),
    ("races two_texels.script -", "order 1 1 11\n", 5, "refused: the script is of another run"),
    ("races two_texels.script compositor.stdout", "", 5, "refused: the script is of another run"),
    ("races two_texels.script names.commands", "", 5, "refused: names.commands: line 2: this is"),
    ("view", "", 5, "refused: the output is empty"),
    ("view", "x\n", 5, "refused: line 1: no line of an output"),
    ("view", "order 1 1 11\nfinish 1 2\n", 5, "refused: line 2: "),
    ("view", "gpu-script 3\n", 5, "refused: line 1: Head"),
    ("view", "gpu-commands 1\nstream 1 normal 64\n  CreateImge\n", 5, "-:3:3: "),
    ("view", "yes events 0\n", 5, "refused: line 1: the output of verify has no journal"),
    ("view nowhere", "", 3, "read fault: nowhere: no such file"),
    ("view .", "", 3, "read fault: .: it is a folder"),
    ("view --pgae x", "", 2, "bad command line: "),
    ("view --page . names.stdout", "", 2, "bad command line: . is a folder, and no file"),
    ("view --page no/page names.stdout", "", 4, "write fault: no/page: No such file or directory"),
    ("view names.script --program nowhere", "", 126, "the program does not start: nowhere: No s"),
    ("trim names.script", "", 2, "bad command line: "),
    ("trim names.script --at x", "", 2, "bad command line: argument --at: 'x' is no number"),
    ("trim names.script --at 99 names.stdout", "", 2, "bad command line: --at 99: the output has"),
    ("trim --at 1 - -", "", 2, "bad command line: standard input cannot be both"),
    ("trim --at 1 names.script names.stdout --jsn", "", 2, "bad command line: unrecognized"),
    ("trim --at 1 nowhere", "", 3, "read fault: nowhere: no such file"),
    ("trim --at 1 names.script nowhere", "", 3, "read fault: nowhere: no such file"),
    ("trim --at 1 names.commands", "", 5, "names.commands:2:1: this is a text of commands, and no"),
    ("trim --at 1 -", "", 5, "-:1:1: the first line has to be `gpu-script 1` or"),
    ("trim --at 1 names.script -", "", 5, "refused: the output is empty"),
    ("trim --at 1 names.script -", "order 1 1 11\nfinish 1", 5, "refused: line 2: "),
    ("trim --at 1 names.script compositor.stdout", "", 5, "refused: line 1: the script is of ano"),
    ("trim --at 1 two_texels.script -", "step 1 0:00000001\n", 5, "refused: line 1: the stream "),
    ("trim --at 1 two_texels.script -", "order 2 1 11\n", 5, "refused: line 1: there is no such"),
    ("trim --at 1 names.script --program nowhere", "", 126, "the program does not start: nowhere"),
)


def check(top: Path, program: Path, tally: Tally, most: int = USUAL_SECONDS) -> None:
    """Reports each answer that is wrong."""
    check_blocks(top, program, tally)
    for line, given, status, said in REFUSED:
        ran = called(top, program, shlex.split(line), given.encode())
        is_so = ran.returncode == status and ran.stderr.decode().startswith(said)
        is_so = is_so and ran.stderr.count(b"\n") == 1 and not ran.stdout
        tally.tell(f"{line} of {given!r}, which is refused", None if is_so else str(ran))
    check_speed(top, program, tally, most)


def check_large(top: Path, program: Path, tally: Tally) -> None:
    check(top, program, tally, LARGE_SECONDS)


def called(top: Path, program: Path, words: Sequence[str], data: bytes = b"",
           folder: str | Path = "examples", **env: str) -> Ran:
    """A tool as it is called, with the program at hand, and without a display."""
    command, tool = COMMANDS[words[0]], COMMANDS[words[0]].tool_for(words[1:])
    starts = command.option("--program") is not None or tool != command.tool
    named = ["--program", str(program)] if starts and "--program" not in words else []
    line = [str(top / tool[0]), *tool[1:], *named, *words[1:]]
    at = line.index("--") if command.ends_with_command and "--" in line else len(line)
    line[at:] = [str(program) if word == "./zorvleid" else word for word in line[at:]]
    kept = {name: text for name, text in os.environ.items() if name not in DISPLAYS}
    return subprocess.run(line, input=data, capture_output=True, check=False, cwd=top / folder,
                          env=kept | env)


def blocks(top: Path) -> Iterator[tuple[str, str, str]]:
    """The document, the command line and the answer of each block."""
    for document in prose.documents(top):
        for found in BLOCK.finditer(document.read_text(encoding="utf-8")):
            yield document.name, found[1], found[2]


def check_blocks(top: Path, program: Path, tally: Tally) -> None:
    """Each answer in a document is the one that is written, and each tool has one."""
    answered = set()
    with tempfile.TemporaryDirectory() as folder:
        (Path(folder) / "examples").symlink_to(top / "examples")
        for document, line, answer in blocks(top):
            command, *words = shlex.split(line)
            answered.add(words[0])
            ran = called(top, program, words, folder=Path(folder))
            is_so = (command, ran.stdout.decode()) == ("./zorvleid", answer)
            tally.tell(f"{document}: {line}", None if is_so else f"the answer is {ran}")
    missing = sorted(set(TOOLS) - answered)
    tally.tell("tools with an answer in a document",
               None if not missing else f"none has the answer of {missing}")


# --- Large inputs ---


def check_speed(top: Path, program: Path, tally: Tally, most: int) -> None:
    """Each tool answers an output of many events within seconds of a processor."""
    script = dict(greatest.commands(1))["ClearRect of one texel"].encode()
    output = subprocess.run([program, "run"], input=script, capture_output=True, check=True).stdout
    tally.tell("a large output", None if output.count(b"\n") > MANY else "it is too small")
    with tempfile.NamedTemporaryFile() as file, tempfile.NamedTemporaryFile() as of:
        for kept, data in ((file, output), (of, script)):
            kept.write(data)
            kept.flush()
        for line in (*LARGE, f"trim --at {MANY} {of.name}"):
            words = [*line.split(), file.name]
            took = (seconds_of(top, program, words) for _ in range(TRIES))
            is_fast = any(seconds < most for seconds in took)
            tally.tell(f"{line} of a large output",
                       None if is_fast else f"it takes above {most} seconds")


def seconds_of(top: Path, program: Path, words: Sequence[str]) -> float:
    """The seconds of a processor that a call takes."""
    before = os.times()
    ran = called(top, program, words)
    after = os.times()
    assert ran.returncode in (0, 1), ran.stderr
    return (after.children_user - before.children_user
            + after.children_system - before.children_system)
