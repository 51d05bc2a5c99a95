"""Runs with workers: threads may give each output, and it is right if its case leaves no choice.

A run with 1 to 8 workers prints one of many histories. For each output these hold:

- the run ends as its journal says, and never out of memory
- `verify` says yes to it, and shows its picture
- the model (tests/model_history.py), a second reading of the rules, finds the journal legal and
  complete
- the images, the lines of the streams, the marks, the dumps and the view lines follow from the
  journal
- it has what is fixed for the case

The whole stored output is fixed in the cases WHOLE. There a script is refused, or a stream is alone
and each flush but the first comes after an await for the finish before it. A dump is such an await
too, and is read before anything after it is flushed. In the cases of SHAPES the lines and their
numbers are fixed; the rules give their order. In all others nothing more is fixed. The model alone
judges view lines. They come after all else, and `verify` passes over them.
"""

import functools
import os
import re
import subprocess
import tempfile
from collections.abc import Iterator, Mapping
from concurrent.futures import ThreadPoolExecutor
from dataclasses import dataclass
from fnmatch import fnmatch
from pathlib import Path
from typing import Any, BinaryIO

from tests import large, model_history
from tests.model_script import Reader
from tools.checks.tally import Tally
from tools.places import SECONDS

INPUT_AT_MOST, WHOLE_AT_MOST = 16_777_216, 67_108_864
COUNTS = (1, 2, 4, 8)
CASES = "tests/cases"
FOLDERS = ("hostile", "lost", "refused", "results", "runs", "waits")
BESIDE = ("large/generated_200_1",)
LARGE, LARGE_COUNTS = ("large/largest_command", "large/widest_spans"), (2,)
VIEWS, VIEWERS = "runs/views", (1, 4)
RANDOM, RANDOM_CASES, RANDOM_COUNTS = "random", 200, (1, 4)
# Of the random cases: the number with dumps, and their workers; the number with viewers, and their
# workers and viewers.
DUMP_CASES, DUMP_COUNTS = 100, (1, 2, 4)
VIEW_CASES, VIEW_WORKERS, VIEW_VIEWERS = 100, 2, 4

WHOLE = ("hostile/*", "large/largest_*", "large/widest_spans", "lost/*", "refused/*", "results/*",
         "runs/bucket_upload", "runs/byte_range", "runs/empty_*", "runs/head_*",
         "runs/overlapping_copy", "runs/two_texels", "runs/views", "runs/wrap_at_the_end",
         "runs/write_is_read_back")

# Cases that would not end if a client gave up where it waits: for room in its queue, for its
# flushes, for a token, for the value of a dump. Where one does not end, no other case is run.
WAITING = ("runs/full_queue", "runs/write_is_read_back", "runs/falling_token",
           "results/results_during_the_run")
WAITING_SECONDS = 60.0

# How often each line comes, and its pattern; a line belongs to the first pattern that fits it.
SHAPES = {
    # The words that the uploads fetch may be any that the client put from their flush on.
    "runs/race": """
        1 order 1 1 14
        1 order 1 2 25
        1 step 1 0:20400004 1:00000001 2:00000001 3:00000001
        1 step 1 4:20c00009 5:00000001 6:0{8} 7:0{8} 8:00000001 9:00000001 \
            10:00000001 11:0{8} 12:0{8} 32:(44332211|88776655|ccbbaa99)
        1 finish 1 1
        1 step 1 13:20c00009 14:00000001 15:0{8} 16:0{8} 17:00000001 18:00000001 \
            19:00000001 20:0{8} 21:0{8} 32:(88776655|ccbbaa99)
        1 finish 1 2
        1 image 1 1 1
        1 (55667788|99aabbcc)
        1 stream 1 done entries 22 release 0 token 0 words 24 errors 0 0 0""",
    # Where the consumer draws the lower number, it waits for nothing, and may copy too early.
    "waits/compositor": """
        1 order 1 [12] 14
        1 order 2 [12] 13
        1 step 1 0:20400004 1:00000001 2:00000002 3:00000001
        1 step 1 4:20800007 5:00000001 6:0{8} 7:0{8} 8:00000002 9:00000001 10:ff0000ff
        1 step 1 11:20000003 12:00000001 13:0{8}
        1 finish 1 [12]
        1 step 2 0:20400004 1:00000002 2:00000002 3:00000001
        1 step 2 4:20a00009 5:00000001 6:0{8} 7:0{8} 8:00000002 9:0{8} 10:0{8} \
            11:00000002 12:00000001
        1 finish 2 [12]
        1 image 1 2 1
        1 image 2 2 1
        1-2 ff0000ff ff0000ff
        0-1 00000000 00000000
        1 stream 1 done entries 14 release 1 token 0 words 14 errors 0 0 0
        1 stream 2 done entries 13 release 0 token 0 words 13 errors 0 [01] 0
        0-1 mark 2 2 1 1 release 1008""",
    # Waits are long: no stream of the generated scripts is lost, whatever the others do.
    "large/generated_200_1": """
        804 order [1-4] [0-9]+ [0-9]+
        4008 step [1-4]( [0-9]+:[0-9a-f]{8})+
        804 finish [1-4] [0-9]+
        4 image [1-4] 16 16
        64 [0-9a-f]{8}( [0-9a-f]{8}){15}
        1 stream 1 done entries 6432 release 200 token 0 words 6605 errors 0 [0-9]+ 0
        1 stream 2 done entries 6432 release 200 token 0 words 6605 errors 0 [0-9]+ 0
        1 stream 3 done entries 6432 release 200 token 0 words 6605 errors 0 [0-9]+ 0
        1 stream 4 done entries 6432 release 200 token 0 words 6605 errors 0 [0-9]+ 0
        0-800 mark [1-4] [0-9]+ [1-4] [0-9]+ (release|guard) [0-9]+""",
    "runs/full_queue": """
        400 order 1 [0-9]+ [0-9]+
        400 finish 1 [0-9]+
        1 stream 1 done entries 0 release 0 token 0 words 0 errors 0 0 0""",
    "runs/many_flushes": """
        20 order 1 [0-9]+ [0-9]+
        20 finish 1 [0-9]+
        1 stream 1 done entries 0 release 0 token 0 words 0 errors 0 0 0""",
    # The second flush of the closing stream may be finished, and its number may be the lower one.
    "waits/close": """
        1 order 1 [1-4] 3
        1 order 1 [1-4] 5
        1 order 2 [1-4] 0
        1 order 2 [1-4] 2
        1 step 1 0:20000003 1:00000003 2:0{8}
        1-2 finish 1 [1-4]
        2 finish 2 [1-4]
        1 close 1
        1 stream 1 closed entries 3 release 3 token 0 words 3 errors 0 0 0
        1 stream 2 done entries 0 release 0 token 0 words 0 errors 0 0 0
        0-1 mark 2 [1-4] 1 9 (guard|closed) [0-9]+""",
    "waits/names": """
        1 gpu-journal 2
        1 name 1 2 77
        1 name 2 2 99
        1 order 1 [12] 3
        1 order 2 [12] 6
        1 step 1 0:20000003 1:00000005 2:0{8}
        1 step 2 0:21800006 1:00000002 2:0000004d 3:0{8} 4:00000005 5:0{8}
        1 finish 1 [12]
        1 finish 2 [12]
        1 stream 1 done entries 3 release 5 token 0 words 3 errors 0 0 0
        1 stream 2 done entries 6 release 0 token 0 words 6 errors 0 0 0
        0-1 mark 2 2 1 5 release 1008""",
}


@dataclass(frozen=True)
class Ran:
    """The answer of a run; one that does not end has no status."""

    status: int | None
    output: bytes
    fault: bytes


def run(
    program: Path,
    words: list[str],
    text: bytes | BinaryIO,
    seconds: float = SECONDS,
    beside: Mapping[str, str] | None = None,
) -> Ran:
    """The program's answer to a text or a file, with `beside` in its environment.

    A run that does not end has no status.
    """
    given: dict[str, Any] = {"input": text} if isinstance(text, bytes) else {"stdin": text}
    try:
        ran = subprocess.run([program, *words], **given, capture_output=True, timeout=seconds,
                             check=False, env={**os.environ, **(beside or {})})
    except subprocess.TimeoutExpired:
        return Ran(None, b"", b"")
    return Ran(ran.returncode, ran.stdout, ran.stderr)


def words_of(workers: int, viewers: int = 0) -> list[str]:
    """The words for `workers`, in both spellings, where no viewer needs one of them."""
    if viewers:
        return ["run", "--workers", str(workers), "--views", str(viewers)]
    return (
        ["run", f"--workers={workers}"] if workers % 4 == 2 else ["run", "--workers", str(workers)]
    )


# --- The checks of an output ---


def fault_of_end(ran: Ran) -> str | None:
    """The fault of the end of a run of a lawful script."""
    if ran.status is None:
        return "it has not ended"
    wanted = model_history.status_of(ran.output)
    if (ran.status, ran.fault) != wanted:
        return (
            f"the status is {ran.status} with {ran.fault[:60]!r} on standard error, and by the "
            f"journal it is {wanted[0]}"
        )
    return None


def threads_of(workers: int, viewers: int) -> str:
    """The numbers of workers and of viewers in words."""
    return f"{workers} workers" + (f" and {viewers} viewers" if viewers else "")


def journal_input(script: bytes, output: bytes) -> bytes:
    return script + (b"" if script.endswith(b"\n") or not script else b"\n") + b"journal\n" + output


def picture_of(output: bytes) -> bytes:
    """The lines of the images."""
    lines = output.split(b"\n")
    begin = next((at for at, line in enumerate(lines) if line.startswith(b"image ")), 0)
    end = next((at for at, line in enumerate(lines) if line.startswith(b"stream ")), begin)
    return (
        b"".join(line + b"\n" for line in lines[begin:end])
        if begin < end and lines[begin].startswith(b"image ")
        else b""
    )


def faults_of_verify(
    program: Path, script: bytes, output: bytes, seconds: float = SECONDS
) -> tuple[str | None, str | None]:
    """The fault of the answer of `verify` to an output, and of its picture."""
    ran = run(program, ["verify"], journal_input(script, output), seconds)
    if ran.status != 0:
        return f"it ends with {ran.status} and {ran.fault[:60]!r}", None
    events = sum(line.startswith((b"order ", b"step ", b"finish ", b"lost ", b"close "))
                 for line in output.split(b"\n"))
    line, _, picture = ran.output.partition(b"\n")
    answer = (
        None if line == b"yes events %d" % events else f"it says {line[:60]!r} of {events} events"
    )
    return answer, None if picture == picture_of(output) else "it shows another picture"


def without_views(output: bytes) -> bytes:
    """The lines before the view lines."""
    begin = 0 if output.startswith(b"view ") else output.find(b"\nview ") + 1 or len(output)
    return output[:begin]


def fault_of_model(reader: Reader, output: bytes, viewers: int = 0) -> str | None:
    try:
        model_history.judged(reader, output, viewers)
    except model_history.Wrong as wrong:
        return str(wrong)
    return None


def fault_of_shape(shape: str, output: bytes) -> str | None:
    """The first line that fits no pattern, or the first pattern with too few or too many lines."""
    patterns = [" ".join(line.split()).split(" ", 1) for line in shape.strip().split("\n")]
    found = [0] * len(patterns)
    for line in output.decode("latin-1").split("\n")[:-1]:
        place = next(
            (at for at, (_, pattern) in enumerate(patterns) if re.fullmatch(pattern, line)), None
        )
        if place is None:
            return f"{line[:90]!r} has no place in it"
        found[place] += 1
    for count, (often, pattern) in zip(found, patterns):
        least, _, most = often.partition("-")
        if not int(least) <= count <= int(most or least):
            return f"{count} lines are like {pattern[:60]!r}, and {often} should be"
    return None


def fault_of_output(
    program: Path,
    script: bytes,
    reader: Reader,
    output: bytes,
    viewers: int,
    seconds: float = SECONDS,
) -> str | None:
    """The first fault of an output, by `verify` and then by the model, or None."""
    answer, picture = faults_of_verify(program, script, output, seconds)
    return answer or picture or fault_of_model(reader, output, viewers)


class Case:
    """A stored case that is a plain `run`, or one with viewers, whose lines are not stored.

    It has its output where it is WHOLE, or `whole` asks for it.
    """

    def __init__(self, top: Path, name: str, whole: bool = False) -> None:
        base = top / CASES / name
        made: list[str] = []

        def part(ending: str, place: int | None = None) -> bytes:
            path = base.with_name(base.name + ending)
            if place is not None and path.with_name(path.name + ".sum").exists():
                made.extend([] if made else large.MAKERS[base.name]())
                return made[place].encode()
            return path.read_bytes() if path.exists() else b""

        self.is_whole = any(fnmatch(name, pattern) for pattern in WHOLE)
        self.name, self.script, self.fault = name, part(".script", 0), part(".stderr")
        self.status, self.output = (
            int(part(".status") or 0),
            part(".stdout", 1) if whole or self.is_whole else b"",
        )

    @functools.cached_property
    def reader(self) -> Reader:
        return Reader(self.script)

    def fault_of_fixed(self, ran: Ran) -> str | None:
        """How a run differs from the fixed parts of the case."""
        output = without_views(ran.output)
        if self.is_whole and (ran.status, output, ran.fault) != (
            self.status,
            self.output,
            self.fault,
        ):
            return "it gives another output, status or line on standard error than is stored"
        return fault_of_shape(SHAPES[self.name], output) if self.name in SHAPES else None

    def faults(
        self, program: Path, workers: int, seconds: float = SECONDS, viewers: int = 0
    ) -> Iterator[tuple[str, str | None]]:
        """The checks of a run with `workers` and `viewers`, each with its fault or None."""
        ran = run(program, words_of(workers, viewers), self.script, seconds)
        yield "what is fixed", self.fault_of_fixed(ran)
        if self.status not in (0, 1):
            return
        fault = fault_of_end(ran)
        yield (
            "its end", fault if fault or ran.status != 8 else "streams were lost for want of memory"
        )
        if ran.status not in (0, 1, 8):
            return
        if len(journal_input(self.script, ran.output)) <= INPUT_AT_MOST:
            answer, picture = faults_of_verify(program, self.script, ran.output, seconds)
            yield "verify", answer
            yield "the picture of verify", picture
        yield "the model", fault_of_model(self.reader, ran.output, viewers)


Planned = tuple[Case, int, int]  # a case, and with how many workers and viewers it is run


def stored_runs(top: Path) -> Iterator[Planned]:
    """Each stored case that is no random one, with each of its numbers of workers and viewers."""
    names = [f"{folder}/{path.stem}" for folder in FOLDERS
             for path in sorted((top / CASES / folder).glob("*.script"))
             if not path.with_suffix(".words").exists()]
    for name in (*names, *BESIDE):
        case = Case(top, name)
        yield from ((case, workers, 0) for workers in COUNTS)
    for name in LARGE:
        case = Case(top, name)
        yield from ((case, workers, 0) for workers in LARGE_COUNTS)
    case = Case(top, VIEWS)
    yield from ((case, workers, viewers) for workers in COUNTS for viewers in VIEWERS)


def random_runs(top: Path) -> tuple[list[Planned], int, int]:
    """The same of the random cases: the first lawful ones, some with dumps, some with viewers."""
    lawful = [
        case
        for case in (
            Case(top, f"{RANDOM}/{path.stem}")
            for path in sorted((top / CASES / RANDOM).glob("*.script"))
        )
        if case.status in (0, 1)
    ]
    with_dumps = [case for case in lawful if re.search(rb"^dump ", case.script, re.MULTILINE)]
    runs = [(case, workers, 0) for case in lawful[:RANDOM_CASES] for workers in RANDOM_COUNTS]
    there = {(case.name, workers) for case, workers, _ in runs}
    runs += [(case, workers, 0) for case in with_dumps[:DUMP_CASES] for workers in DUMP_COUNTS
             if (case.name, workers) not in there]
    return (
        runs + [(case, VIEW_WORKERS, VIEW_VIEWERS) for case in lawful[:VIEW_CASES]],
        len(lawful),
        len(with_dumps),
    )


def unended(top: Path, program: Path, seconds: float = WAITING_SECONDS) -> list[str]:
    """The runs of cases in which clients wait that do not end within these seconds."""
    return [
        f"{name} with {threads_of(workers, 0)}"
        for name in WAITING
        for workers in COUNTS
        if run(program, words_of(workers), Case(top, name).script, seconds).status is None
    ]


def check(top: Path, program: Path, tally: Tally) -> None:
    """Reports the faults of each case, number of workers and number of viewers."""
    hung = unended(top, program)
    tally.tell("clients that wait", f"no end of {', '.join(hung)}" if hung else None)
    if hung:
        return
    drawn, lawful, with_dumps = random_runs(top)
    runs = [*stored_runs(top), *drawn]
    there = {case.name for case, _, _ in runs}
    for name in SHAPES:
        tally.tell(f"{name} with workers", None if name in there else "there is no such case")
    tally.tell(
        "random cases with workers", None if lawful >= RANDOM_CASES else f"there are {lawful}"
    )
    tally.tell("random cases with workers and dumps",
               None if with_dumps >= DUMP_CASES else f"there are {with_dumps}")
    tell_runs(program, tally, runs)


def tell_runs(program: Path, tally: Tally, runs: list[Planned]) -> None:
    with ThreadPoolExecutor(os.cpu_count()) as pool:
        found_of = pool.map(
            lambda item: list(item[0].faults(program, item[1], viewers=item[2])), runs
        )
        for (case, workers, viewers), found in zip(runs, found_of):
            for what, fault in found:
                tally.tell(f"{case.name} with {threads_of(workers, viewers)}: {what}", fault)


# --- The test of these checks ---

MEMORY_LOST = ("order 1 1 11", "lost 1 memory",
               "stream 1 lost memory entries 0 release 0 token 0 words 0 errors 0 0 0")
# What the first and the second view line say, in place of what they are.
FALLING = (
    '/^view/ { n++ } n == 1 { $0 = "view 1 4 fe0001fe" } /^view/ && n == 2 { $0 = "view 1 0 '
    '00000000" } 1'
)
STALE_WORD = "s/^(step 1 13:.*) 32:88776655$/\\1 32:44332211/; s/^55667788$/11223344/"

# Wrong answers that must be found: by which check, in which case, of which command, and the line of
# the shell that makes it.
PLANTED = (
    ("its end", "runs/two_texels", "run", 'real "$@"; exit 1'),
    ("its end", "runs/two_texels", "run", 'real "$@"; echo some streams were lost >&2'),
    ("its end", "runs/two_texels", "run", f'printf "%s\\n" {" ".join(map(repr, MEMORY_LOST))}; '
                                          'echo streams were lost for want of memory >&2; exit 8'),
    ("its end", "runs/two_texels", "run", "echo no memory >&2; exit 6"),
    ("its end", "runs/two_texels", "run", "exec sleep 20"),
    ("verify", "runs/two_texels", "verify", "exit 9"),
    ("verify", "runs/two_texels", "verify", 'real "$@" | sed "s/^yes events 4/yes events 5/"'),
    ("the picture of verify", "runs/two_texels", "verify", "echo yes events 4"),
    ("the picture of verify", "runs/two_texels", "run",
     'real "$@" | sed "s/^ff0000ff ff0000ff/ff0000ff 00000000/"'),
    ("the model", "runs/two_texels", "run", 'real "$@" | sed "s/^finish 1 1/finish 1 2/"'),
    ("the model", "runs/two_texels", "run", 'real "$@" | sed "/^finish/d"'),
    ("the model", "runs/two_texels", "run",
     'real "$@" | sed "s/^ff0000ff ff0000ff/ff0000ff 00000000/"'),
    ("the model", "runs/two_texels", "run", 'real "$@" | sed "s/words 11/words 12/"'),
    ("the model", "runs/two_texels", "run", 'real "$@"; echo mark 1 1 1 1 guard 1005'),
    ("the model", "waits/names", "run", 'real "$@" | sed "s/^name 2 2 99/name 2 2 98/"'),
    ("the model", "runs/write_is_read_back", "run", f'real "$@" | sed -E "{STALE_WORD}"'),
    ("the model", "results/results", "run",
     'real "$@" | sed "s/^dump 1 17 0 00000006/dump 1 17 0 00000007/"'),
    ("the model", "results/results", "run", 'real "$@" | sed "/^dump 1 19/d"'),
    ("the model", "runs/views", "run", 'real "$@" | sed "s/^view 1 4 fe0001fe/view 1 4 00000000/"'),
    ("the model", "runs/views", "run", f"real \"$@\" | awk '{FALLING}'"),
    ("the model", "runs/views", "run", 'real "$@" | sed "0,/^view/ { /^view/d }"'),
    ("the model", "runs/views", "run", 'real "$@"; echo view 1 4 fe0001fe'),
    ("the model", "runs/views", "run", 'real "$@" | sed "s/^view .*/view 1 3 fe0001fe/"'),
    ("the model", "runs/views", "run", 'real "$@" | sed "\\$ s/^view 1 4/view 1 5/"'),
    ("the model", "runs/views", "run", 'real "$@" | sed "\\$ s/^view 1/view 2/"'),
    ("the model", "runs/views", "run", 'real "$@" | sed "\\$ s/fe0001fe/FE0001FE/"'),
    ("the model", "runs/views", "run", 'real "$@" | sed "/^view/d"'),
    ("what is fixed", "runs/views", "run", 'real "$@" | sed "s/^stream 1 done/stream 1 closed/"'),
    ("what is fixed", "results/results_during_the_run", "run",
     'real "$@" | sed "s/^dump 1 11 0 00000006/dump 1 11 0 00000007/"'),
    ("what is fixed", "runs/two_texels", "run", 'real "$@" | sed "s/10:ff0000ff/10:ff0000fe/"'),
    ("what is fixed", "hostile/first_size_zero", "run", 'real "$@" 2>&1'),
    ("what is fixed", "refused/bad_value", "run", "exit 5"),
    ("what is fixed", "runs/race", "run",
     'real "$@" | sed -E "s/^(step 1 13:.*) 32:[0-9a-f]*$/\\1 32:44332211/"'),
    ("what is fixed", "runs/many_flushes", "run", 'real "$@" | sed "/^finish 1 20/d"'),
    ("what is fixed", "waits/compositor", "run",
     'real "$@" | sed "/^image 2/,\\$ s/^[0f].*/ff0000ff 00000000/"'),
    ("what is fixed", "waits/close", "run", 'real "$@" | sed "s/^stream 1 closed/stream 1 done/"'),
    ("what is fixed", "large/generated_200_1", "run",
     'real "$@" | sed "s/^stream 3 done entries 6432/stream 3 done entries 6400/"'),
)


def wrapped(program: Path, folder: Path, words: str, line: str) -> Path:
    """The program, but with a line of the shell for one command; `real` in it is the program."""
    path = folder / "wrapped"
    path.write_text(
        f'#!/bin/bash\nset -o pipefail\nreal() {{ "{program}" "$@"; }}\n[ "$1" = {words} ] || exec '
        f'"{program}" "$@"\n'
        f'{line}\n')
    path.chmod(0o755)
    return path


def selftest(top: Path, program: Path, tally: Tally) -> None:
    """Shows that each check finds the wrong answers that are planted for it."""
    def faults_of(program: Path, name: str, seconds: float = SECONDS) -> list[tuple[str, str]]:
        found = Case(top, name).faults(program, 2, seconds, 1 if name == VIEWS else 0)
        return [(what, fault) for what, fault in found if fault]

    for name in sorted({planted[1] for planted in PLANTED}):
        found = faults_of(program, name)
        tally.tell(f"{name} with 2 workers, nothing planted",
                   f"{found[0][0]}: {found[0][1]}" if found else None)
    with tempfile.TemporaryDirectory() as folder:
        asleep = wrapped(program, Path(folder), "run", "exec sleep 20")
        tally.tell("clients that wait for ever",
                   None if len(unended(top, asleep, 0.5)) == len(WAITING) * len(COUNTS)
                   else "not each of their runs was found")
        for wanted, name, words, line in PLANTED:
            seconds = 5 if "sleep" in line else SECONDS
            program_of = wrapped(program, Path(folder), words, line)
            kinds = [what for what, _ in faults_of(program_of, name, seconds)]
            tally.tell(f"{line!r} for {words} of {name}",
                       None if wanted in kinds else f"{wanted} did not find it")
