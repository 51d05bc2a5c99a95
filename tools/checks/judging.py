"""Whole outputs: what `verify --whole` says of them, against the model.

A run of a hostile script (tests/hostile.py) has 0 to 8 workers, and with workers up to 4 viewers.
The whole output must be right. Then one character of it is changed, a line is taken out, or a line
is doubled. The program must say of it what tests/model_whole.py says: the status, and the line that
is off. A change to another value that a dump or a look may have is right too.

The model, the program and `explain` must also agree about each answer: the line that `explain`
wants in place of the one that is off is not off any more.
"""

import os
import re
from collections import Counter
from collections.abc import Iterator
from concurrent.futures import ThreadPoolExecutor
from dataclasses import dataclass
from pathlib import Path

from tests import hostile, model_whole
from tools.checks import workers as runs
from tools.checks.tally import Tally
from view import explain
from zorvleid.errors import printable

COUNT, COUNT_LARGE, SEED = 300, 3000, 1
CHARACTERS = "0123456789abcdef :\nxZ"
KINDS = {"name", "image", "stream", "mark", "dump", "view", "missing", "more"}
OFF = re.compile(r"no: line (\d+): (\w+)")
Answer = tuple[int | None, str]


@dataclass(frozen=True)
class Judged:
    """What was said of an output, and the fault of that, if there is one."""

    name: str
    kind: str
    fault: str | None


def kind_of(answer: Answer) -> str:
    """What is off by an answer, or its status."""
    found = OFF.fullmatch(answer[1])
    return found[2] if found else str(answer[0])


def said(program: Path, data: bytes) -> Answer:
    """What the program says of an input."""
    ran = runs.run(program, ["verify", "--whole"], data)
    return ran.status, ran.fault.decode("latin-1").rstrip("\n")


def changed(output: str, draw: hostile.Draw) -> str:
    """An output with a character changed, most often outside its journal, or with another line."""
    lines = output.splitlines(True)
    after = [at for at, line in enumerate(lines)
             if line.startswith(("name", "image", "stream", "mark", "dump", "view"))]
    parts = sorted({lines[at].partition(" ")[0] for at in after})
    if draw.chance(80):
        part = draw.of(parts)
        at = draw.of([at for at in after if lines[at].startswith(part)])
        at += draw.below(2) if part == "image" else 0
    else:
        at = draw.below(len(lines))
    if draw.chance(10):
        return "".join(lines[:at] + lines[at + 1:])
    if draw.chance(10):
        return "".join(lines[:at + 1] + lines[at:])
    line = lines[at]
    place = draw.below(len(line))
    other = draw.of(CHARACTERS.replace(line[place], ""))
    lines[at] = line[:place] + other + line[place + 1:]
    return "".join(lines)


def wish_of(data: bytes, answer: Answer) -> str | None:
    """The fault of the line that `explain` wants in place of the one that is off, or None."""
    found = OFF.fullmatch(answer[1])
    if found is None or found[2] == "more":
        return None
    line = int(found[1])
    wanted = [text.removeprefix("wanted: ")
              for text in explain.meaning(answer[0] or 0, answer[1], data)
              if text.startswith("wanted: ")]
    if not wanted:
        return "`explain` wants nothing in its place"
    if " E X`" in wanted[-1]:
        return None
    lines = data.decode("latin-1").splitlines(True)
    lines[line - 1:line] = [wanted[-1].partition(", if ")[0] + "\n"]
    again = OFF.fullmatch(model_whole.answer("".join(lines).encode("latin-1"))[1])
    if again and int(again[1]) <= line:
        return f"with {printable(wanted[-1])} in its place the model says {again[0]}"
    return None


def judge(program: Path, seed: int) -> Iterator[Judged]:
    """What is said of the output of a seed, and of one with a change."""
    script = hostile.script(seed).encode()
    workers = seed % 9
    viewers = 1 + seed // 36 % 4 if workers and seed // 9 % 2 else 0
    ran = runs.run(program, runs.words_of(workers, viewers), script)
    name = f"seed {seed} with {workers} workers and {viewers} viewers"
    if ran.status not in (0, 1) or not ran.output:
        yield Judged(name, str(ran.status), f"the run ends with {ran.status}")
        return
    answer = said(program, runs.journal_input(script, ran.output))
    yield Judged(name, "right", None if answer == (0, "") else f"it says {answer}")
    text = changed(ran.output.decode("latin-1"), hostile.Draw(seed))
    data = runs.journal_input(script, text.encode("latin-1"))
    wanted, answer = model_whole.answer(data), said(program, data)
    fault = None if answer == wanted else f"it says {answer}, and the model {wanted}"
    yield Judged(f"{name}, changed", kind_of(wanted), fault or wish_of(data, wanted))


def check(top: Path, program: Path, tally: Tally, count: int = COUNT) -> None:
    """Reports each output that is judged otherwise than by the model."""
    kinds: Counter[str] = Counter()
    with ThreadPoolExecutor(os.cpu_count() or 1) as pool:
        for all_of_seed in pool.map(lambda seed: list(judge(program, seed)),
                                    range(SEED, SEED + count)):
            for judged in all_of_seed:
                kinds[judged.kind] += 1
                tally.tell(judged.name, judged.fault)
    lacking = KINDS - set(kinds)
    tally.tell("all kinds of faults", f"none is {lacking}" if lacking else None)
    tally.note(", ".join(f"{number} {kind}" for kind, number in sorted(kinds.items())))


def check_large(top: Path, program: Path, tally: Tally) -> None:
    check(top, program, tally, COUNT_LARGE)
