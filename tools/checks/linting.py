"""What `--lint` notes of texts and scripts: what is wrong with each, and nothing if all is well.

A stream that a note calls lost must be lost by the program, or closed. The examples have the notes
that are listed here, as texts and as scripts.
"""

import subprocess
import tempfile
from pathlib import Path

from tests import hostile
from tools.checks.command_lines import Tree
from tools.checks.tally import Tally
from zorvleid import Script, assemble, lint, read_output, read_script

HEAD = "gpu-commands 1\nstream 1 normal 32\nmemory 0 2\nresults 0 2\n"
IMAGE = "CreateImage image=1 width=2 height=1\n"
CLEAR = "ClearRect image=1 x=0 y=0 w=1 h=1 texel=0xff\n"
UPLOAD = "UploadRect image=1 x=0 y=0 w={} h=1 format={} memory={} memory_offset=0\n"
BUCKET, END = "SetBucketSize bucket=0 size=8\n", "flush\nfinish\n"
LOSES = "this command loses the stream: "
COPY = "CopyRect source=1 x=0 y=0 target=2 x2=0 y2=0 w=1 h=1\n"
# What stands after the first four lines, and the notes: a line and a sentence each.
TEXTS: tuple[tuple[str, list[tuple[int, str]]], ...] = (
    (IMAGE + CLEAR + END, []),
    (IMAGE + END + CLEAR, [(8, "no `flush` hands over what is put here")]),
    (IMAGE + END + CLEAR + CLEAR, [(8, "no `flush` hands over what is put here")]),
    (IMAGE + "flush\nunchecked put 1 2\n", []),
    (IMAGE + "flush after 1:1\n", [(6, "stream 1 waits for itself: the wait is dropped")]),
    (IMAGE + "flush after 3:1\n", [(6, "there is no stream 3: the wait is dropped")]),
    (IMAGE + "flush after 2:1\nstream 2 low 16\nflush\n", []),
    ("WaitToken stream=1 release=1\n" + END,
     [(5, "stream 1 waits for itself: the wait is dropped")]),
    ("WaitSyncToken namespace=3 id=1 release=1\n" + END,
     [(5, "there is no stream 3:1: the wait is dropped")]),
    (IMAGE + UPLOAD.format(2, 1, 0) + END, []),
    (IMAGE + UPLOAD.format(2, 9, 0) + END, [(6, LOSES + "no format has the number 9")]),
    (IMAGE + UPLOAD.format(3, 1, 0) + END,
     [(6, LOSES + "`memory 0` has 8 bytes, and the range ends at 12")]),
    (IMAGE + UPLOAD.format(1, 1, 3) + END, [(6, LOSES + "the stream has no `memory 3`")]),
    ("SetBucketSize bucket=16 size=8\n" + END, [(5, LOSES + "bucket 16 is above 15")]),
    ("CreateBuffer buffer=0 size=262145\n" + END,
     [(5, LOSES + "262145 bytes are more than 262144")]),
    (BUCKET + "SetBucketDataImmediate bucket=0 offset=0 size=5 data=1\n" + END,
     [(6, LOSES + "its data has 4 bytes, and the size is 5")]),
    (BUCKET + "GetBucketData bucket=0 offset=0 size=4 memory=0 memory_offset=2\n" + END,
     [(6, LOSES + "the offset 2 is not a multiple of 4")]),
    (BUCKET + "GetBucketStart bucket=0 result_memory=0 result_offset=0 data_size=8 data_memory=0 "
     "data_offset=4\n" + END, [(6, LOSES + "`results 0` has 8 bytes, and the range ends at 12")]),
    (BUCKET + "GetBucketStart bucket=0 result_memory=0 result_offset=0 data_size=0 data_memory=9 "
     "data_offset=4\n" + END, []),
    ("word 0\n" + END, [(5, LOSES + "its size is 0")]),
    ("word 0x200040 1\n" + END, [(5, LOSES + "its size is 64, and there is room for 2")]),
    ("word 0xffe00002 1\n" + END, [(5, LOSES + "no command has the id 2047")]),
    ("word 0x200003 1 1\n" + END, [(5, LOSES + "SetToken cannot have the size 3")]),
    ("word 0xffe00002 1\nflush\nunchecked put 0 200002\n", []),
    ("flush 40\n",
     [(5, "the stream is lost here: PUT is 40, and the ring has the places 0 to 31")]),
    (IMAGE + "DeleteImage image=1\n" + END,
     [(5, "image 1 is deleted, and no command reads it before")]),
    (IMAGE + "DeleteImage image=1\n" + IMAGE + END, []),
    (IMAGE + COPY + "DeleteImage image=1\n" + END, []),
)
EXAMPLES = {
    "lost_stream": ["this command loses the stream: no command has the id 1023"],
    "names": ["there is no stream 3:1: the wait is dropped"],
}
SEEDS = 60
LEAST = 10  # lost streams of hostile scripts
LONG = "gpu-script 1\nstream 1 normal 4096\nput 0" + " 200002 1" * 2048 + "\n"
MANY = LONG + "flush 2048\nfinish\nflush 0\nfinish\n" * 257


def check(top: Path, program: Path, tally: Tally) -> None:
    """Reports each text with other notes, and each note that is not true."""
    for text, wanted in TEXTS:
        notes = [(note.line, note.why) for note in lint(assemble(HEAD + text))]
        tally.tell(f"the notes on {text!r}", unlike(wanted, notes))
    for path in sorted((top / "examples").glob("*.script")):
        for script in (read_script(path.read_bytes()),
                       assemble(path.with_suffix(".commands").read_bytes())):
            whys = [note.why for note in lint(script)]
            tally.tell(f"the notes on {path.stem}", unlike(EXAMPLES.get(path.stem, []), whys))
    whys = [note.why for note in lint(read_script(MANY))]
    quota = LOSES + "with it the stream has fetched above 1048576 words"
    tally.tell("the notes on too many words", unlike([quota], whys))
    check_losses(program, tally)
    with tempfile.TemporaryDirectory() as folder:
        tree = Tree(top, Path(folder))
        tree.build(program)
        check_calls(tree.top, tally)


def unlike(wanted: object, got: object) -> str | None:
    """The fault of a thing that is not as it should be, or None."""
    return None if wanted == got else f"wanted {wanted}, got {got}"


def check_losses(program: Path, tally: Tally) -> None:
    """A stream of a hostile script that is called lost does not end well."""
    count = 0
    for seed in range(1, SEEDS + 1):
        text = hostile.script(seed, hostile.Brief)
        script = read_script(text)
        ran = subprocess.run([program, "run"], input=text.encode(), capture_output=True,
                             check=False)
        ends = [stream.end for stream in read_output(ran.stdout).streams]
        lost = {number_of(script, note.line) for note in lint(script) if " lo" in note.why}
        count += len(lost)
        well = sorted(number for number in lost if ends[number - 1] == "done")
        tally.tell(f"the notes on hostile script {seed}",
                   f"the streams {well} are called lost, and end well" if well else None)
    tally.tell("the streams that are called lost", None if count >= LEAST else f"they are {count}")


def number_of(script: Script, line: int) -> int:
    """The number of the stream that has a line."""
    begun = [stream.origins[0] for stream in script.streams if stream.origins]
    return max(1, sum(first <= line for first in begun))


def check_calls(top: Path, tally: Tally) -> None:
    """Notes go to standard error, and the status is 1 where there is one."""
    names = top / "examples/names"
    why = EXAMPLES["names"][0]
    counts = "ok streams 2 actions 11 flushes 2\n"
    script = names.with_suffix(".script").read_text()
    calls: tuple[tuple[list[str], str, tuple[int, str, str]], ...] = (
        (["check", "--lint", f"{names}.script"], "", (1, counts, f"{names}.script:11: {why}\n")),
        (["check", "--lint"], script, (1, counts, f"-:11: {why}\n")),
        (["check", f"{names}.script"], "", (0, counts, "")),
        (["assemble", "--lint", f"{names}.commands"], "",
         (1, script, f"{names}.commands:11: {why}\n")),
        (["assemble", "--lint"], HEAD + IMAGE + END,
         (0, assemble(HEAD + IMAGE + END).text(), "")),
        (["check", "--lint"], "gpu-script 3\n", (5, "", "")),
    )
    for words, given, wanted in calls:
        ran = subprocess.run([top / "zorvleid", *words], input=given, capture_output=True,
                             text=True, check=False)
        said = ran.stderr if wanted[0] != 5 else ""
        got = (ran.returncode, ran.stdout, said)
        tally.tell(f"zorvleid {' '.join(words)}", unlike(wanted, got))
